/* Yuldravn's functions for C. Link target/staticlib/libaspda.a (made by `.ci/build`).
 *
 * Every function answers one 64-bit word. A refusal is 2^63 + number * 2^32 + place, with the number of documents 01 and 02
 * and the byte offset of its place; all else is below 2^63. A pointer comes with its length and is never null; the slice
 * that a call writes to overlaps none of the others. The functions read and write nothing but the slices that they are
 * lent and their stack (of a source without preference sheets 22 KiB in the check, 1 KiB in translate and the quotient; with
 * sheets 356 KiB in the check, 220 KiB in translate and the quotient; 348 KiB in the check of a plain program, 65 KiB in extend,
 * 92 KiB in aspif, 1 KiB elsewhere), keep no state of their own (an assembly's is the caller's) and take no other memory.
 */
#ifndef ASPDA_H
#define ASPDA_H

#include <stddef.h>
#include <stdint.h>

#ifdef __cplusplus
extern "C" {
#endif

#define ASPDA_IS_REFUSAL(word) ((word) >> 63)
#define ASPDA_REFUSAL_NUMBER(word) ((uint32_t)(((word) >> 32) & 0x7fffffff))
#define ASPDA_REFUSAL_PLACE(word) ((uint32_t)(word))

/* A source has at most 64,388 bytes and 256 rules, a plain program at most 456,708 bytes and 20,992 rules.
 *
 * Preference sheets: a source may hold, anywhere before its end record, up to 64 O: records (4F 3A, two tags: the first
 * overrides the second) and up to 64 X: records (58 3A, two literals of kind 0 or 1: they oppose). For each O: in order,
 * each X: in order, and the pair (a, b) both ways, as written first: if a defeasible rule with the upper tag heads a and
 * one with the lower tag heads b, the strict rule "defeated (lower, b) if a" is appended behind the written rules, unless
 * it was appended before. Every function means the program with these rules, but reading and showing count the written
 * ones alone, as the end record does. Refusal 14 is a record whose two tags or two literals are equal. A plain program has
 * no sheets: there O: and X: are refusal 3. */

/* The number of rules that are written in the program in p[0 .. n). */
uint64_t aspda_read_source(const uint8_t *p, size_t n);
uint64_t aspda_read_plain(const uint8_t *p, size_t n);

/* The translation of the source in p[0 .. n), written to out[0 .. m): the number of bytes written. It is at most thirteen
 * times the sum of n and 17 for each appended rule, and at most ASPDA_TRANSLATION_BOUND(n). A refusal leaves out as it
 * was; bytes behind the result are left as they were. */
uint64_t aspda_translate(const uint8_t *p, size_t n, uint8_t *out, size_t m);

/* The bytes that appended rules can add to a translation or a quotient: 17 for each, and two rules for each two records.
 * A source without O: or without X: records has none. */
#define ASPDA_APPENDED_BOUND (17 * 2 * 64 * 64)
#define ASPDA_TRANSLATION_BOUND(n) (13 * (size_t)(n) + ASPDA_APPENDED_BOUND)

/* The plain program in p[0 .. n) as a text in aspif, the form that the solvers of the clingo family read, written to
 * out[0 .. m): the number of bytes written, at most ASPDA_ASPIF_BOUND(n). A literal's number is its place among those that
 * occur, ascending as byte strings, from 1; atoms and negated atoms are named p and n with the atom in decimal. No byte 0
 * ends the text. A refusal leaves out as it was; bytes behind the result are left as they were. */
uint64_t aspda_aspif(const uint8_t *p, size_t n, uint8_t *out, size_t m);

#define ASPDA_ASPIF_BOUND(n) (2 * (size_t)(n) + 29012)

/* A set s[0 .. k) is an A: record that has its slice to itself. Where a program comes with a set, a refusal of the
 * program's comes first. What a function writes goes to the start of out[0 .. m), and its answer is the number of bytes
 * written. A refusal leaves out as it was; bytes behind the result are left as they were. */

/* The quotient of the program in p[0 .. n) by the set: S: records with tag 0 and an end record, what is left of appended
 * rules behind the others. It is at most n bytes long, of a source with sheets at most n + ASPDA_APPENDED_BOUND. It is a
 * plain program, and with sheets not always a source: it may have 8,448 rules. A source's set holds at most 1,000 literals
 * of the source form, a plain program's at most 5,352 of the plain form. */
uint64_t aspda_quotient_source(const uint8_t *p, size_t n, const uint8_t *s, size_t k, uint8_t *out, size_t m);
uint64_t aspda_quotient_plain(const uint8_t *p, size_t n, const uint8_t *s, size_t k, uint8_t *out, size_t m);

/* The extension of the source set by the source in p[0 .. n): the set with its derivation and rule-defeated marks, as an
 * A: record. It is a plain set of at most 25,484 bytes. */
uint64_t aspda_extend(const uint8_t *p, size_t n, const uint8_t *s, size_t k, uint8_t *out, size_t m);

/* The restriction of the plain set: the set without its derivation and rule-defeated marks, as an A: record. It is at
 * most k bytes long, and may hold more literals than a source's set. */
uint64_t aspda_restrict(const uint8_t *s, size_t k, uint8_t *out, size_t m);

/* Is the set an answer set of the program in p[0 .. n)? It holds at most 64 literals of the program's form, and out is
 * at least as long as the set, whatever the verdict. The answer is the verdict * 2^32 + its value:
 *
 *     ASPDA_YES       it is; the value is 0
 *     ASPDA_CLASH     the position in the set, from 1, of the first literal whose opposite is in the set
 *     ASPDA_BROKEN    the number, from 1, of the first rule whose remainder in the quotient does not hold; appended rules
 *                     are counted behind the written ones
 *     ASPDA_SMALLER   the number of bytes written to out: an A: record of the first proper subset that is a model of
 *                     the quotient, subsets being compared literal by literal, absent before present
 *
 * Only the last verdict writes. A refusal leaves out as it was; bytes behind the record are left as they were. */
uint64_t aspda_check_source(const uint8_t *p, size_t n, const uint8_t *s, size_t k, uint8_t *out, size_t m);
uint64_t aspda_check_plain(const uint8_t *p, size_t n, const uint8_t *s, size_t k, uint8_t *out, size_t m);

#define ASPDA_YES 0
#define ASPDA_CLASH 1
#define ASPDA_BROKEN 2
#define ASPDA_SMALLER 3
#define ASPDA_VERDICT(word) ((uint32_t)((word) >> 32))
#define ASPDA_VERDICT_VALUE(word) ((uint32_t)(word))

/* Where the record of a written rule lies, the rules being numbered from 1: start * 2^32 + length. */
uint64_t aspda_show_source(const uint8_t *p, size_t n, uint32_t rule);
uint64_t aspda_show_plain(const uint8_t *p, size_t n, uint32_t rule);

#define ASPDA_SHOWN_START(word) ((uint32_t)((word) >> 32))
#define ASPDA_SHOWN_LENGTH(word) ((uint32_t)(word))

/* Assembly: a source is built in a lent buffer out[0 .. m), rule by rule. What is held so far stands in a state, which is the
 * caller's: state[0 .. k) with k = ASPDA_STATE bytes, which may be copied and kept as any bytes may. All zero bytes are a state
 * before the first begin. Bytes that no call gives back count as such, for every call.
 *
 * An accepted begin, add, drop or close answers the number of rules then held and changes the state; a refused call changes
 * no byte of state or out. Answers and states depend on the state and the record given and on m, never on the bytes of out.
 * Refusals come in the order in which they are told here. For each of these four calls the first is 15, place 0: if k is not
 * ASPDA_STATE; and of all but begin, if nothing is open, that is before the first accepted begin or after closing.
 *
 * If every call since the last accepted begin is lent the same out and gets the state that the call before gave back, and
 * only these calls write to out, then after an accepted close aspda_read_source accepts out[0 .. aspda_assembled(state, k)),
 * and aspda_show_source gives exactly the rules that were added since and not dropped, in order. */
#define ASPDA_STATE 520

/* A buffer in which no begin, add or close is refused with 9: 256 rules of 247 bytes, and an end record. */
#define ASPDA_ASSEMBLY_BOUND (256 * 247 + 4)

/* Starts afresh: open, no rule held; 0 is answered. Any ASPDA_STATE bytes will do; what an open assembly held is given up.
 * Refused with 9, place 0, if m is below 4, the length of an end record. Only the length of out counts: it is not written
 * to. */
uint64_t aspda_begin(uint8_t *state, size_t k, const uint8_t *out, size_t m);

/* Adds the rule whose S: or D: record starts at record[0]; bytes behind the record are not looked at. The record is written
 * to out behind those that are held, and nothing else is. It is refused as reading a source would refuse it behind the rules
 * held, its places counted in record[0 .. r):
 *
 *     2    fewer than two bytes
 *     3    any mark but S: and D:, of a preference sheet and of an end record too
 *     2    fewer than 7 bytes
 *     4    256 rules are held
 *     6    the tag: S: has 0, D: 1 to 200
 *     4    more than 16 head, positive or naf literals
 *     2    the literals are cut
 *     5    a literal's kind, tag or atom, at its first byte
 *     7    a defeasible rule without head, or with a defeat mark in its head
 *     9    m is below the length of the records held, this one and an end record; place 0 */
uint64_t aspda_add(uint8_t *state, size_t k, const uint8_t *record, size_t r, uint8_t *out, size_t m);

/* Drops the last of the rules held. Refused with 15, place 0, also if none is held. Nothing is written to a buffer: the next
 * add or close writes where the dropped record stood. */
uint64_t aspda_drop(uint8_t *state, size_t k);

/* Closes: the end record is written to out behind the records held, and nothing else is. The rules count as held until the
 * next begin. Refused with 9, place 0, if m is below the length of the records held and an end record. */
uint64_t aspda_close(uint8_t *state, size_t k, uint8_t *out, size_t m);

/* The length of the records held and of an end record: after closing, that of the source in the buffer. It is never a
 * refusal: before the first begin, and for what is no state, of another length than ASPDA_STATE too, it is 4. */
uint64_t aspda_assembled(const uint8_t *state, size_t k);

#ifdef __cplusplus
}
#endif

#endif
