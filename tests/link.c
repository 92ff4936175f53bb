/* The library links from C by its header, and answers as document 01 says: M1's source has one rule, whose record is
 * the first 12 bytes, and translates into 94 bytes and 5 rules; an empty slice is refusal 2 at place 0. Document 02's
 * plain program with the fact 1 is a text of four lines; its Example 1 with preference sheets has two rules and translates
 * as M3 does. M1 is assembled, and what is closed is read back. */
#include "../include/aspda.h"

#include <stdio.h>
#include <string.h>

int main(void)
{
    const uint8_t source[] = {0x44, 0x3A, 0, 7, 1, 0, 0, 0, 0, 0, 0, 1, 0x45, 0x3A, 0, 1};
    uint64_t rules = aspda_read_source(source, sizeof source);
    uint64_t shown = aspda_show_source(source, sizeof source, 1);
    uint64_t refused = aspda_read_plain(source, 0);

    if (ASPDA_IS_REFUSAL(rules) || rules != 1) return 1;
    if (ASPDA_SHOWN_START(shown) != 0 || ASPDA_SHOWN_LENGTH(shown) != 12) return 2;
    if (!ASPDA_IS_REFUSAL(refused) || ASPDA_REFUSAL_NUMBER(refused) != 2 || ASPDA_REFUSAL_PLACE(refused) != 0) return 3;
    uint8_t plain[95];
    plain[94] = 0xAA;
    uint64_t written = aspda_translate(source, sizeof source, plain, sizeof plain);
    if (written != 94 || aspda_read_plain(plain, 94) != 5 || plain[94] != 0xAA) return 4;
    /* M5: {2, defeated (7,1)} gains derived (7,2) and rule-defeated 1; its restriction is the set again; the quotient keeps
     * rules 2 and 3. */
    const uint8_t m5[] = {0x44, 0x3A, 0, 7, 1, 0, 0, 0, 0, 0, 0, 1, 0x44, 0x3A, 0, 7, 1, 0, 0, 0, 0, 0, 0, 2,
                          0x53, 0x3A, 0, 0, 1, 0, 0, 2, 0, 7, 0, 1, 0x45, 0x3A, 0, 3};
    const uint8_t set[] = {0x41, 0x3A, 0, 2, 0, 0, 0, 0, 2, 2, 0, 7, 0, 1};
    const uint8_t extended[] = {0x41, 0x3A, 0, 4, 0, 0, 0, 0, 2, 2, 0, 7, 0, 1, 4, 0, 7, 0, 2, 6, 0, 0, 0, 1};
    uint8_t out[41];
    if (aspda_extend(m5, sizeof m5, set, sizeof set, out, sizeof out) != sizeof extended) return 5;
    if (memcmp(out, extended, sizeof extended) != 0) return 6;
    if (aspda_restrict(extended, sizeof extended, out, sizeof out) != sizeof set) return 7;
    if (memcmp(out, set, sizeof set) != 0) return 8;
    if (aspda_quotient_source(m5, sizeof m5, set, sizeof set, out, sizeof out) != 28) return 9;
    if (aspda_read_plain(out, 28) != 2) return 10;
    refused = aspda_quotient_plain(out, 28, set, sizeof set, out + 28, 0);
    if (ASPDA_REFUSAL_NUMBER(refused) != 9) return 11;
    /* M9: of the empty program the empty set is an answer set, and {1} is not: {} is smaller. */
    const uint8_t none[] = {0x45, 0x3A, 0, 0}, empty[] = {0x41, 0x3A, 0, 0}, one[] = {0x41, 0x3A, 0, 1, 0, 0, 0, 0, 1};
    if (aspda_check_source(none, sizeof none, empty, sizeof empty, out, sizeof out) != ASPDA_YES) return 12;
    written = aspda_check_plain(none, sizeof none, one, sizeof one, out, sizeof out);
    if (ASPDA_VERDICT(written) != ASPDA_SMALLER || ASPDA_VERDICT_VALUE(written) != sizeof empty) return 13;
    if (memcmp(out, empty, sizeof empty) != 0) return 14;
    /* Document 02, ask 1. */
    const uint8_t fact[] = {0x53, 0x3A, 0, 0, 1, 0, 0, 0, 0, 0, 0, 1, 0x45, 0x3A, 0, 1};
    const char text[] = "asp 1 0 0\n1 0 1 1 0 0\n4 2 p1 1 1\n0\n";
    uint8_t lines[ASPDA_ASPIF_BOUND(sizeof fact)];
    lines[35] = 0xAA;
    if (aspda_aspif(fact, sizeof fact, lines, sizeof lines) != 35 || lines[35] != 0xAA) return 15;
    if (memcmp(lines, text, 35) != 0) return 16;
    if (aspda_aspif(fact, sizeof fact, lines, 35) != 35) return 17;
    refused = aspda_aspif(fact, sizeof fact, lines, 34);
    if (ASPDA_REFUSAL_NUMBER(refused) != 9 || ASPDA_REFUSAL_PLACE(refused) != 0) return 18;
    /* Document 02, ask 2: tag 1 overrides tag 2; 1 and 4, 1 and 5, 2 and 5 oppose. */
    const uint8_t sheets[] = {0x44, 0x3A, 0, 1, 3, 0, 0, 0, 0, 0, 0, 1, 0, 0, 0, 0, 2, 0, 0, 0, 0, 3,
                              0x44, 0x3A, 0, 2, 2, 0, 0, 0, 0, 0, 0, 4, 0, 0, 0, 0, 5, 0x4F, 0x3A, 0, 1, 0, 2,
                              0x58, 0x3A, 0, 0, 0, 0, 1, 0, 0, 0, 0, 4, 0x58, 0x3A, 0, 0, 0, 0, 1, 0, 0, 0, 0, 5,
                              0x58, 0x3A, 0, 0, 0, 0, 2, 0, 0, 0, 0, 5, 0x45, 0x3A, 0, 2};
    static uint8_t translation[ASPDA_TRANSLATION_BOUND(sizeof sheets)];
    if (aspda_read_source(sheets, sizeof sheets) != 2) return 19;
    if (aspda_translate(sheets, sizeof sheets, translation, sizeof translation) != 433) return 20;
    if (aspda_read_plain(translation, 433) != 22) return 21;
    const uint8_t itself[] = {0x4F, 0x3A, 0, 7, 0, 7, 0x45, 0x3A, 0, 0};
    refused = aspda_read_source(itself, sizeof itself);
    if (ASPDA_REFUSAL_NUMBER(refused) != 14 || ASPDA_REFUSAL_PLACE(refused) != 0) return 22;
    /* Document 02, ask 4: M1 assembled behind a fact that is dropped; bytes behind a record are not looked at. */
    uint8_t state[ASPDA_STATE] = {0}, before[ASPDA_STATE], made[17];
    memset(made, 0xAA, sizeof made);
    refused = aspda_add(state, sizeof state, source, 12, made, sizeof made);
    if (ASPDA_REFUSAL_NUMBER(refused) != 15 || ASPDA_REFUSAL_PLACE(refused) != 0) return 23;
    if (aspda_assembled(state, sizeof state) != 4 || state[0] != 0) return 24;
    if (aspda_begin(state, sizeof state, made, sizeof made) != 0 || made[0] != 0xAA) return 25;
    if (aspda_add(state, sizeof state, fact, sizeof fact, made, sizeof made) != 1) return 26;
    if (aspda_drop(state, sizeof state) != 0) return 27;
    refused = aspda_drop(state, sizeof state);
    if (ASPDA_REFUSAL_NUMBER(refused) != 15) return 28;
    memcpy(before, state, sizeof state);
    refused = aspda_add(state, sizeof state, source, sizeof source, made, 15);
    if (ASPDA_REFUSAL_NUMBER(refused) != 9 || memcmp(state, before, sizeof state) != 0) return 29;
    refused = aspda_add(state, sizeof state, source + 12, 4, made, sizeof made);
    if (ASPDA_REFUSAL_NUMBER(refused) != 3 || memcmp(state, before, sizeof state) != 0) return 30;
    if (memcmp(made, fact, 12) != 0 || made[12] != 0xAA) return 31;
    if (aspda_add(state, sizeof state, source, sizeof source, made, 16) != 1 || made[12] != 0xAA) return 32;
    if (aspda_close(state, sizeof state, made, 16) != 1 || made[16] != 0xAA) return 33;
    if (aspda_assembled(state, sizeof state) != sizeof source || memcmp(made, source, sizeof source) != 0) return 34;
    if (aspda_read_source(made, 16) != 1 || aspda_show_source(made, 16, 1) != shown) return 35;
    refused = aspda_close(state, sizeof state, made, sizeof made);
    if (ASPDA_REFUSAL_NUMBER(refused) != 15) return 36;
    refused = aspda_begin(state, sizeof state - 1, made, sizeof made);
    if (ASPDA_REFUSAL_NUMBER(refused) != 15) return 37;
    refused = aspda_begin(state, sizeof state, made, 3);
    if (ASPDA_REFUSAL_NUMBER(refused) != 9 || aspda_assembled(state, sizeof state) != 16) return 38;
    puts("link.c: linked and answered");
    return 0;
}
