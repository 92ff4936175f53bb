#!/usr/bin/env bash
# The built command, end to end: every command with text and with bytes, M3 whole, preference sheets, assembly, each refusal,
# help, exit statuses.
# The binary is $ASPDA, else target/rust/release/aspda (tests/wrappers.sh builds it).
set -euo pipefail
root=$(cd "$(dirname "${BASH_SOURCE[0]}")/.." && pwd)
aspda=$(readlink -f "${ASPDA:-$root/target/rust/release/aspda}")
work=$(mktemp -d)
trap 'rm -rf "$work"' EXIT
cp "$root"/examples/m[13].* "$root"/examples/m3_sheets.* "$work"
cd "$work"

# The forms' figures that are tried here: literals of a part of a source's rule, naf literals of a plain one, rules and bytes of
# each form's longest program, the last atom and tag, literals of a set that is checked, records of sheets of each kind.
most_literals=16 most_nafs=17 rules=256 bytes=64388 plain_rules=20992 plain_bytes=456708 last_atom=500 last_tag=200 checked=64 sheets=64

runs=0
declare -A reached=()

fail() { # WHAT: with what the last run left
    printf 'command.sh: %s\n' "$1" "standard output: $(cat .out)" "standard error: $(cat .err)" >&2
    exit 1
}

run() { # STATUS ARGUMENTS
    local wanted=$1 status=0
    shift
    runs=$((runs + 1))
    "$aspda" "$@" >.out 2>.err || status=$?
    [ "$status" = "$wanted" ] || fail "aspda $*: exit status $status, not $wanted"
}

prints() { # STATUS TEXT ARGUMENTS: TEXT and a line's end on standard output (nothing, if TEXT is empty), no message
    local status=$1 text=$2
    shift 2
    run "$status" "$@"
    [ "$(cat .out)" = "$text" ] && [ ! -s .err ] || fail "aspda $*: \"$text\" expected"
}

gives() { prints 0 "$@"; } # TEXT ARGUMENTS

# The exit status where there is no result: 2 of commands that came after document 01's.
failure=1

complains() { # TEXT ARGUMENTS: status $failure, and TEXT as the only message
    local text=$1
    shift
    run $failure "$@"
    [ "$(cat .err)" = "aspda: $text" ] && [ ! -s .out ] || fail "aspda $*: \"$text\" expected"
}

refuses() { # NUMBER PLACE WHERE ARGUMENTS: WHERE is the file or set, and in brackets what ends the message
    local number=$1 place=$2 file=${3%% (*} ending=
    case $3 in *' ('*) ending=" (${3#* (}" ;; esac
    shift 3
    run $failure "$@"
    local message="aspda: $file: refused with $number at byte $place: "
    [[ "$(cat .err)" =~ ^"$message"[a-z][^\(]*"$ending"$ ]] && [ ! -s .out ] ||
        fail "aspda $*: refusal $number at byte $place of $file$ending expected"
    reached[$number]=1
}

same() { cmp "$1" "$2" || fail "$1 and $2 differ"; }

# The examples: text, bytes and translation agree.
for name in m1 m3; do
    gives "" convert $name.txt -o made.aspda
    same made.aspda $name.aspda
    gives "" convert $name.aspda -o made.txt
    gives "" convert made.txt -o again.aspda
    same again.aspda $name.aspda
    for source in $name.txt $name.aspda; do
        gives "" translate $source -o made.plain
        same made.plain $name.plain
        gives "$(sed -n 's/^%     \(.*% rule .*\)/\1/p' $name.txt)" translate $source
    done
    gives "" translate $name.aspda -o plain.txt
    gives "" convert --plain plain.txt -o made.plain
    same made.plain $name.plain
done
gives "1 rule, 16 bytes" read m1.txt
gives "5 rules, 94 bytes" read m3.aspda
gives "22 rules, 433 bytes" read --plain m3.plain
gives "22 rules, 433 bytes" read --plain plain.txt
gives "tag 2: 4 or 5.  % rule 2, 17 bytes from byte 22" show m3.txt 2
gives "tag 2: 4 or 5.  % rule 2, 17 bytes from byte 22" show m3.aspda 2
gives "defeated(2, 5) if 2.  % rule 22, 17 bytes from byte 412" show --plain m3.plain 22

# M3's answer sets as its file lists them, the source's and then the translation's: yes, and each other's extension.
mapfile -t sets < <(sed -n 's/^%     \({.*\)/\1/p' m3.txt)
[ ${#sets[@]} = 8 ] || fail "m3.txt lists ${#sets[@]} sets, not 8"
for i in 0 1 2 3; do
    gives "yes: the set is an answer set" check m3.txt "${sets[i]}"
    gives "yes: the set is an answer set" check --plain m3.plain "${sets[i + 4]}"
    gives "${sets[i + 4]}" extend m3.aspda "${sets[i]}"
    gives "${sets[i]}" restrict "${sets[i + 4]}"
done

# Of all 128 sets over M3's literals exactly these four are answer sets.
answer_sets=
literals=(1 2 3 4 5 'defeated(2, 4)' 'defeated(2, 5)')
for mask in {0..127}; do
    set=
    for i in "${!literals[@]}"; do
        if ((mask >> i & 1)); then set="$set${set:+, }${literals[i]}"; fi
    done
    runs=$((runs + 1))
    if "$aspda" check m3.aspda "{$set}" >.out 2>.err; then answer_sets="$answer_sets{$set}"$'\n'; fi
    [ ! -s .err ] || fail "aspda check m3.aspda {$set}: a message"
done
[ "$(sort <<<"${answer_sets%?}")" = "$(printf '%s\n' "${sets[@]:0:4}" | sort)" ] || fail "answer sets: $answer_sets"

# Sets as text and bytes; the other verdicts, in words and as a witness.
echo '{defeated(2, 5), 4, 2, 4} % in any order, twice' >set.txt
gives "" convert set.txt -o set.bytes
printf 'A:\0\3\0\0\0\0\2\0\0\0\0\4\2\0\2\0\5' | cmp - set.bytes || fail "set.bytes differs"
gives "" convert set.bytes -o listed.txt
[ "$(cat listed.txt)" = "{2, 4, defeated(2, 5)}" ] || fail "listed.txt: $(cat listed.txt)"
gives "yes: the set is an answer set" check m3.aspda set.bytes -o unwritten
gives "" extend m3.txt set.bytes -o plain.set
gives "yes: the set is an answer set" check --plain plain.txt plain.set
gives "" restrict plain.set -o back.set
same back.set set.bytes
gives "" convert --plain '{derived(1, 2)}' -o derived.set
gives "{}" restrict derived.set
smaller="smaller: this proper subset is a model of the quotient too"
prints 1 "$smaller"$'\n'"{3, 5}" check m3.txt '{3, 4, 5}' -o witness.txt
[ "$(cat witness.txt)" = "{3, 5}" ] || fail "witness.txt: $(cat witness.txt)"
echo '1 or 2.' >m6.txt
prints 1 "$smaller"$'\n'"{2}" check m6.txt '{1, 2}' -o witness.set
printf 'A:\0\1\0\0\0\0\2' | cmp - witness.set || fail "witness.set differs"
prints 1 "clash: literal 1 of the set, 1, and its opposite are both in it" check m6.txt '{-1, 1}' -o unwritten
echo 'never.' >m8.txt
prints 1 "broken: what the quotient keeps of rule 1 does not hold in the set"$'\n'"never." check --plain m8.txt '{}'
[ ! -e unwritten ] || fail "a verdict without witness wrote a file"

# Quotients: of M3's translation, as text and as bytes; rules with defeated options.
gives "1 or 2 or 3.  % rule 1
5.  % rule 2
defeated(2, 4) if 1.  % rule 3
defeated(2, 5) if 1.  % rule 4
defeated(2, 5) if 2.  % rule 5" quotient m3.txt '{defeated(2, 4)}'
gives "" quotient --plain m3.plain "${sets[4]}" -o quotient.plain
gives "" quotient --plain plain.txt "${sets[4]}" -o quotient.txt
gives "" convert --plain quotient.txt -o again.plain
same again.plain quotient.plain
gives "yes: the set is an answer set" check --plain quotient.plain "${sets[4]}"

# Names: in listings, in sets, declared again so that a listing stands alone.
cat >kit.txt <<'KIT'
% A mill's x axis: a servo, unless the shop has none left.
atom 12 = servo_x. atom 13 = stepper_x. atom 20 = servos_left.
tag 3 = drive_x.
tag drive_x: servo_x or -stepper_x or 14
    if not 30.
defeated(drive_x, servo_x) if not servos_left.
never if rule.
KIT
complains 'kit.txt: line 7, column 10: no atom is declared as `rule`' read kit.txt
sed -i '$d' kit.txt
gives "tag drive_x: servo_x or -stepper_x or 14 if not 30.  % rule 1, 27 bytes from byte 0" show kit.txt 1
gives "{-stepper_x, defeated(drive_x, servo_x), derived(drive_x, -stepper_x)}" \
    extend kit.txt '{-stepper_x, defeated(drive_x, servo_x)}'
gives "atom 12 = servo_x.
atom 13 = stepper_x.
atom 20 = servos_left.
tag 3 = drive_x.

servo_x or -stepper_x or 14.  % rule 1
defeated(drive_x, servo_x).  % rule 2" quotient kit.txt '{}'
prints 1 "$smaller"$'\n'"{-stepper_x, defeated(drive_x, servo_x)}" \
    check kit.txt '{-stepper_x, 14, defeated(drive_x, servo_x)}'
gives "" translate kit.txt -o kit-plain.txt
gives "" translate kit.txt -o kit.plain
gives "" convert --plain kit-plain.txt -o again.plain
same again.plain kit.plain

# Preference sheets: M3 with them is M3, and what is appended is shown with the records that made it.
gives "" convert m3_sheets.txt -o made.aspda
same made.aspda m3_sheets.aspda
gives "" convert m3_sheets.aspda -o made.txt
[ "$(cat made.txt)" = "tag 1: 1 or 2 or 3.  % rule 1
tag 2: 4 or 5.  % rule 2
tag 1 overrides tag 2.
1 and 4 oppose.
1 and 5 oppose.
2 and 5 oppose." ] || fail "made.txt: $(cat made.txt)"
gives "" convert made.txt -o again.aspda
same again.aspda m3_sheets.aspda
gives "2 rules, 85 bytes" read m3_sheets.txt
gives "tag 2: 4 or 5.  % rule 2, 17 bytes from byte 22" show m3_sheets.aspda 2
expansion=$(sed -n 's/^%     \(.*% rule .*\)/\1/p' m3_sheets.txt)
gives "$expansion" expand m3_sheets.txt
gives "defeated(2, 4) if 1.  % rule 3: tag 1 overrides tag 2 (byte 39); 1 and 4 oppose (byte 45)
defeated(2, 5) if 1.  % rule 4: tag 1 overrides tag 2 (byte 39); 1 and 5 oppose (byte 57)
defeated(2, 5) if 2.  % rule 5: tag 1 overrides tag 2 (byte 39); 2 and 5 oppose (byte 69)" expand m3_sheets.aspda
for source in m3_sheets.txt m3_sheets.aspda; do
    gives "" translate $source -o made.plain
    same made.plain m3.plain
    for i in 0 1 2 3; do
        gives "yes: the set is an answer set" check $source "${sets[i]}"
        gives "${sets[i + 4]}" extend $source "${sets[i]}"
    done
    for set in '{}' '{defeated(2, 4)}' '{1, 2, defeated(2, 4), defeated(2, 5)}'; do
        gives "$("$aspda" quotient m3.txt "$set")" quotient $source "$set"
    done
    for set in '{1, 4}' '{2, 5}' '{3, 4, 5}' '{1, -1}' '{4}'; do
        status=0
        "$aspda" check m3.txt "$set" >wanted || status=$?
        run $status check $source "$set"
        [ "$(sed 's/  % rule.*//' .out)" = "$(cat wanted)" ] || fail "check $source $set: $(cat wanted) expected"
    done
done
prints 1 "broken: what the quotient keeps of rule 3 does not hold in the set"$'\n'"${expansion%%$'\n'*}" check m3_sheets.txt '{1, 4}'
gives "" expand m3_sheets.txt -o appended.plain
gives "3 rules, 55 bytes" read --plain appended.plain
gives "" expand m3_sheets.txt -o appended.txt
gives "" convert appended.txt -o again.plain
same again.plain appended.plain
run 0 expand - -o - <m3_sheets.aspda
same .out appended.plain
gives "% no rule is appended" expand m3.txt
cat >kit.txt <<'KIT'
tag 3 = drive_x. tag 4 = brake_x.
1 and -brake oppose. % behind its use no name is known
KIT
complains 'kit.txt: line 2, column 8: no atom is declared as `brake`' read kit.txt
cat >kit.txt <<'KIT'
tag 3 = drive_x. tag 4 = brake_x.
atom 12 = servo_x. atom 13 = stepper_x. atom 20 = brake. atom 21 = oppose.
tag drive_x overrides tag brake_x. tag 5 overrides tag drive_x.
servo_x
    and -brake oppose. -brake and servo_x oppose.
tag brake_x: -brake or oppose or servo_x. oppose and 30 oppose.
tag drive_x: servo_x or stepper_x or -brake.
KIT
gives "atom 12 = servo_x.
atom 13 = stepper_x.
atom 20 = brake.
atom 21 = oppose.
tag 3 = drive_x.
tag 4 = brake_x.

defeated(brake_x, -brake) if servo_x.  % rule 3: tag drive_x overrides tag brake_x (line 3); servo_x and -brake oppose (line 4)
defeated(brake_x, servo_x) if -brake.  % rule 4: tag drive_x overrides tag brake_x (line 3); servo_x and -brake oppose (line 4)" \
    expand kit.txt
gives "" convert kit.txt -o kit.aspda
gives "" convert kit.aspda -o listed.txt
[ "$(grep -v '^tag .:' listed.txt)" = "tag 3 overrides tag 4.
tag 5 overrides tag 3.
12 and -20 oppose.
-20 and 12 oppose.
21 and 30 oppose." ] || fail "listed.txt: $(cat listed.txt)"

# The longest source and its translation, listed and read again: two rules are appended for each two records of its sheets.
body="if $(seq -s ' and ' $most_literals) and not $(seq -s ' and not ' $most_literals)."
for ((i = 0; i < rules; i++)); do echo "tag $((1 + i % (sheets + 1))): $(seq -s ' or ' $most_literals) $body"; done >longest.txt
for ((i = 0; i < sheets; i++)); do echo "tag 1 overrides tag $((i + 2))."; done >>longest.txt
for ((i = 1; i <= most_literals; i++)); do
    for ((j = 1; j < i; j++)); do echo "$i and $j oppose."; done
done | sed "${sheets}q" >>longest.txt
gives "$rules rules, $bytes bytes" read longest.txt
run 0 expand longest.txt
[ "$(wc -l <.out)" = $((2 * sheets * sheets)) ] || fail "longest.txt expands to $(wc -l <.out) rules"
[ "$(sort -u .out | wc -l)" = $((2 * sheets * sheets)) ] || fail "longest.txt expands to a rule twice"
gives "" translate longest.txt -o longest.plain
gives "$plain_rules rules, $plain_bytes bytes" read --plain longest.plain
gives "" convert --plain longest.plain -o longest-plain.txt
[ "$(grep -c '% rule' longest-plain.txt)" = $plain_rules ] || fail "longest-plain.txt does not list $plain_rules rules"
gives "" convert --plain longest-plain.txt -o again.plain
same again.plain longest.plain

# Each refusal by number and place, with rule and line where the program is text. 9 is a short buffer's, and the
# command's are long enough: rust/aspda/tests/refusals.rs has it.
head -c $((bytes + 1)) /dev/zero >long
refuses 1 0 long read long
refuses 1 0 long translate long -o unwritten
for ((i = 0; i * 12 <= bytes; i++)); do printf '1.'; done >long.txt # 12 bytes for each rule
refuses 1 0 long.txt read long.txt
: >empty
refuses 2 0 empty read empty
refuses 3 0 m3.aspda convert --plain m3.aspda -o unwritten
refuses 3 0 "m3.txt (rule 1, line 4)" read --plain m3.txt
printf '1.\n%% two\n\n%s.\n' "$(seq -s ' or ' $((most_literals + 1)))" >heads.txt
refuses 4 12 "heads.txt (rule 2, line 4)" translate heads.txt -o unwritten
more=$((rules + 1)) no_atom=$((last_atom + 1))
for ((i = 0; i < more; i++)); do echo '1.'; done >rules.txt
refuses 4 $((12 * rules)) "rules.txt (rule $more, line $more)" read rules.txt
gives "$more rules, $((12 * more + 4)) bytes" read --plain rules.txt
printf '1. 2\nor %s.\n' $no_atom >literal.txt
refuses 5 24 "literal.txt (rule 2, line 1)" quotient literal.txt '{}'
refuses 5 24 "literal.txt (rule 2, line 1)" extend literal.txt "{$no_atom}"
echo "tag $((last_tag + 1)): 1." >tag.txt
refuses 6 0 "tag.txt (rule 1, line 1)" show tag.txt 1
printf '1.\ntag 1: never if 1.\n' >never.txt
refuses 7 12 "never.txt (rule 2, line 2)" convert never.txt -o unwritten
printf 'E:\0\1' >end
refuses 8 0 end check end '{}'
printf '1.\n\ntag 7 overrides\n tag 7.\n' >itself.txt
refuses 14 12 "itself.txt (override, line 3)" read itself.txt
refuses 14 12 "itself.txt (override, line 3)" translate itself.txt -o unwritten
echo '1 and 2 oppose. -3 and -3 oppose.' >itself.txt
refuses 14 12 "itself.txt (opposition, line 1)" check itself.txt '{}'
printf 'tag 1 overrides tag 2. tag 1 overrides\ntag %s.\n' $((last_tag + 1)) >sheet.txt
refuses 6 6 "sheet.txt (override, line 1)" show sheet.txt 1
printf '1.\n1 and defeated(1, 2) oppose.\n' >sheet.txt
refuses 5 19 "sheet.txt (opposition, line 2)" extend sheet.txt '{}'
for ((i = 0; i <= sheets; i++)); do echo '1 and 2 oppose.'; done >sheet.txt
refuses 4 $((12 * sheets)) "sheet.txt (opposition, line $((sheets + 1)))" quotient sheet.txt '{}'
printf '1.\ntag 1 overrides tag 2.\n' >sheet.txt
refuses 3 12 "sheet.txt (override, line 2)" read --plain sheet.txt
refuses 13 0 m3_sheets.txt show m3_sheets.txt 3
printf 'O:\0\1' >cut.aspda
refuses 2 0 cut.aspda convert cut.aspda -o unwritten
printf 'A:\0\1' >cut.set
refuses 10 0 cut.set restrict cut.set
refuses 10 0 cut.set convert cut.set -o unwritten
refuses 11 9 "{1, $no_atom} ($no_atom)" check m3.txt "{1, $no_atom}"
refuses 11 4 "{derived(1, 1)} (derived(1, 1))" convert '{derived(1, 1)}' -o unwritten
printf 'A:\0\2\0\0\0\0\2\0\0\0\0\1' >order.set
refuses 11 9 order.set extend m3.aspda order.set
refuses 11 19 "{30, 14, -servo_x, derived(drive_x, servo_x)} (derived(drive_x, servo_x))" \
    extend kit.txt '{30, 14, -servo_x, derived(drive_x, servo_x)}'
echo "{$(seq -s , $((checked + 1)))}" >large.txt
refuses 12 0 large.txt check --plain m3.plain large.txt
gives "" convert large.txt -o large.set
refuses 13 0 m3.txt show m3.txt 6
refuses 13 0 m3.plain show --plain m3.plain 0
[ ! -e unwritten ] || fail "a refusal wrote a file"
for number in {1..8} {10..14}; do
    [ "${reached[$number]:-}" ] || fail "refusal $number was not reached"
done

# A plain program as a text for a solver: to standard output, to a file of any name, from a file or standard input.
echo '1.' >fact.txt
gives $'asp 1 0 0\n1 0 1 1 0 0\n4 2 p1 1 1\n0' aspif fact.txt
[ "$(wc -c <.out)" = 35 ] || fail "the fact's text has $(wc -c <.out) bytes, not 35"
cp .out fact.aspif
gives "" convert --plain fact.txt -o fact.plain
gives "" aspif fact.plain -o made.aspif
same made.aspif fact.aspif
gives "" aspif fact.plain -o made.txt
same made.txt fact.aspif
run 0 aspif - -o - <fact.plain
same .out fact.aspif
printf 'E:\0\0' >none.plain
gives $'asp 1 0 0\n0' aspif none.plain
echo 'never. -2 or 1 or 1 if 2 and not rule-defeated(3). 2 if derived(7, -2).' >both.txt
gives "asp 1 0 0
1 0 0 0 0
1 0 3 3 1 1 0 2 2 -5
1 0 1 2 0 1 4
1 0 0 0 2 2 3
4 2 p1 1 1
4 2 p2 1 2
4 2 n2 1 3
0" aspif both.txt
for name in m1 m3; do
    gives "" aspif $name.plain -o made.aspif
    same made.aspif $name.aspif
done
run 0 translate m3.txt -o -
same .out m3.plain
"$aspda" translate - -o - <m3.aspda | "$aspda" aspif - >piped.aspif
same piped.aspif m3.aspif
[ "$(grep -c '^1 ' m3.aspif)" = 22 ] && [ "$(grep -c '^4 ' m3.aspif)" = 5 ] || fail "m3.aspif: $(cat m3.aspif)"
gives "" aspif longest.plain -o longest.aspif
[ "$(grep -c '^1 0 ' longest.aspif)" = $plain_rules ] || fail "longest.aspif has not $plain_rules rules"
run 0 read - <m3.aspda
[ "$(cat .out)" = "5 rules, 94 bytes" ] || fail "read -: $(cat .out)"
complains 'standard output has the verdict; -o needs a file behind it' check m3.txt '{3, 4, 5}' -o -

# Its refusals name the limit that is passed, and the exit status is 2, as for misuse.
failure=2
message() { # TEXT: it ends the message of the last run
    [[ "$(cat .err)" == *"$1" ]] || fail "the message does not end in: $1"
}
refused_text() { # NUMBER PLACE FILE LIMIT: aspif refuses the file, and the message ends in the limit
    run $failure aspif "$3" -o unwritten
    [[ "$(cat .err)" == "aspda: $3: refused with $1 at byte $2: "[a-z]*"$4" ]] && [ ! -s .out ] ||
        fail "aspif $3: refusal $1 at byte $2 and \"$4\" expected"
}
head -c $((plain_bytes + 1)) /dev/zero >long.plain
refused_text 1 0 long.plain "; a plain program has at most $plain_bytes bytes"
refused_text 2 0 empty " is cut short"
refused_text 3 0 m3.aspda "; a plain program has strict rules and its end alone, a source is translated first"
refused_text 3 0 m3.txt " (rule 1, line 4); a plain program has strict rules and its end alone, a source is translated first"
counts="each with at most $most_literals head, $most_literals positive and $most_nafs naf literals"
printf '1.\n2 if not %s.\n' "$(seq -s ' and not ' $((most_nafs + 1)))" >nafs.txt
refused_text 4 12 nafs.txt " (rule 2, line 2); a plain program has at most $plain_rules rules, $counts"
more=$((plain_rules + 1))
for ((i = 0; i < more; i++)); do echo 'never.'; done >rules.txt
refused_text 4 $((7 * plain_rules)) rules.txt " (rule $more, line $more); a plain program has at most $plain_rules rules, $counts"
ranges="; atoms run from 1 to $last_atom, tags from 1 to $last_tag, rule numbers from 1 to $rules"
refused_text 5 24 literal.txt " (rule 2, line 1)$ranges"
printf 'S:\0\1\0\0\0E:\0\1' >tag.plain
refused_text 6 0 tag.plain "; a strict rule has tag 0"
refused_text 8 0 end ", or bytes follow it"
[ ! -e unwritten ] || fail "a refusal wrote a file"
run $failure aspif - <m3.aspda
message "standard input: refused with 3 at byte 0: the mark is none of the form's records; a plain program has strict \
rules and its end alone, a source is translated first"
complains 'nowhere.plain: No such file or directory (os error 2)' aspif nowhere.plain
complains 'nowhere/m3: No such file or directory (os error 2)' aspif m3.plain -o nowhere/m3
complains 'SOURCE expected, 2 given; usage: aspda expand SOURCE [-o FILE]' expand m3.txt 1
complains '`--plain` has no place here; usage: aspda expand SOURCE [-o FILE]' expand --plain m3.plain
complains 'nowhere.txt: No such file or directory (os error 2)' expand nowhere.txt
refused_expansion() { # NUMBER PLACE FILE LIMIT: expand refuses the file, and the message ends in the limit
    run $failure expand "$3" -o unwritten
    [[ "$(cat .err)" == "aspda: $3: refused with $1 at byte $2: "[a-z]*"$4" ]] && [ ! -s .out ] ||
        fail "expand $3: refusal $1 at byte $2 and \"$4\" expected"
}
head -c $((bytes + 1)) /dev/zero >long
refused_expansion 1 0 long "; a source has at most $bytes bytes"
printf 'Y:' >mark
refused_expansion 3 0 mark "; a source has rules, preference sheets and its end alone"
for ((i = 0; i <= sheets; i++)); do echo 'tag 1 overrides tag 2.'; done >sheet.txt
counts="each with at most $most_literals head, $most_literals positive and $most_literals naf literals"
refused_expansion 4 $((6 * sheets)) sheet.txt " (override, line $((sheets + 1))); a source has at most $rules rules, $counts, and \
$sheets overrides and $sheets oppositions"
echo "1 and -$((last_atom + 1)) oppose." >sheet.txt
refused_expansion 5 7 sheet.txt " (opposition, line 1); atoms run from 1 to $last_atom, tags from 1 to $last_tag; options are \
atoms and their negations"
echo "tag 0 overrides tag 1." >sheet.txt
refused_expansion 6 0 sheet.txt " (override, line 1); tags run from 1 to $last_tag, and a strict rule has tag 0"
refused_expansion 14 12 itself.txt " or an option opposes itself (opposition, line 1)"
[ ! -e unwritten ] || fail "a refusal wrote a file"
complains 'PROGRAM expected, 0 given; usage: aspda aspif PROGRAM [-o FILE]' aspif
complains 'PROGRAM expected, 2 given; usage: aspda aspif PROGRAM [-o FILE]' aspif m3.plain m3.plain
complains '`--plain` has no place here; usage: aspda aspif PROGRAM [-o FILE]' aspif --plain m3.plain
complains '-o needs a file behind it; usage: aspda aspif PROGRAM [-o FILE]' aspif m3.plain -o
printf 1 >open.plain.txt
complains 'open.plain.txt: line 1, column 2: `or`, `if` or `.` expected, and not the end of the text' aspif open.plain.txt
status=0
"$aspda" aspif m3.plain >/dev/full 2>.err || status=$?
[ $status = 2 ] || fail "aspif to a full device: exit status $status, not 2"

# Assembly: the rules of files, each added by itself, as text and as bytes, from files and from standard input.
head -c -4 m3.aspda >m3.rules
for source in m3.txt m3.rules; do
    gives "" assemble $source -o made.aspda
    same made.aspda m3.aspda
done
run 0 assemble - -o - <m3.rules
same .out m3.aspda
gives "" convert m3.aspda -o listed.txt
gives "$(cat listed.txt)" assemble m3.rules
gives "" assemble m3.rules -o made.txt
same made.txt listed.txt
: >nothing
gives "" assemble nothing nothing -o none.aspda
printf 'E:\0\0' | cmp - none.aspda || fail "none.aspda differs"
cat >names.txt <<'KIT'
atom 12 = servo_x. atom 13 = stepper_x.
tag 3 = drive_x.
servo_x. % taken back below, in another file
KIT
cat >edited.txt <<'KIT'
drop.
atom 12 = servo_x. % again, as it is
tag drive_x: servo_x
    or stepper_x.
never if servo_x. drop. drop.
tag drive_x: servo_x or -stepper_x.
KIT
printf 'S:\0\0\0\0\0' >never.rules
gives "atom 12 = servo_x.
atom 13 = stepper_x.
tag 3 = drive_x.

tag drive_x: servo_x or -stepper_x.  % rule 1
never.  % rule 2
never.  % rule 3" assemble names.txt edited.txt never.rules never.rules
echo 'atom 5 = drop. drop. drop if -drop.' >named.txt
gives "" assemble named.txt -o made.aspda
gives "" convert named.txt -o again.aspda
same made.aspda again.aspda

# What cannot be added is told with its line, or with its record's number and first byte; what is wrong in terms of the text.
refused_rules() { # NUMBER PLACE FILE ENDING ARGUMENTS: assemble refuses the file, and the message ends so
    local number=$1 place=$2 file=$3 ending=$4
    shift 4
    run $failure assemble "$@" -o unwritten
    [[ "$(cat .err)" == "aspda: $file: refused with $number at byte $place: "[a-z]*"$ending" ]] && [ ! -s .out ] ||
        fail "assemble $*: refusal $number at byte $place of $file and \"$ending\" expected"
    reached[$number]=1
}
reached=()
printf '1.\n\n tag 1 overrides tag 2.\n' >sheet.txt
refused_rules 3 12 sheet.txt " (override, line 3); overrides and oppositions cannot be assembled" sheet.txt
printf 'never. never. drop.\n1 and 2\noppose.\n' >sheet.txt
refused_rules 3 7 sheet.txt " (opposition, line 2); overrides and oppositions cannot be assembled" sheet.txt
only_rules="; rules alone can be assembled: no overrides, no oppositions, no end record"
refused_rules 3 90 m3.aspda " (record 6, from byte 90)$only_rules" m3.aspda
refused_rules 3 39 m3_sheets.aspda " (record 3, from byte 39)$only_rules" m3_sheets.aspda
refused_rules 3 0 "standard input" " (record 1, from byte 0)$only_rules" m3.rules - <mark
head -c -1 m3.rules >cut.rules
refused_rules 2 73 cut.rules " is cut short (record 5, from byte 73)" m3.rules cut.rules
for ((i = 0; i < rules; i++)); do echo 'never.'; done >full.txt
gives "" assemble full.txt -o full.aspda
gives "$rules rules, $((7 * rules + 4)) bytes" read full.aspda
echo 'never. % one too many' >>full.txt
most_rules="; a source has at most $rules rules"
refused_rules 4 $((7 * rules)) full.txt " (rule $((rules + 1)), line $((rules + 1)))$most_rules" full.txt
sed -i '$d' full.txt
refused_rules 4 0 never.rules " (record 1, from byte 0)$most_rules" full.txt never.rules
echo 'drop. never.' >exchanged.txt
gives "" assemble full.txt exchanged.txt -o made.aspda
same made.aspda full.aspda
counts="; a source's rule has at most $most_literals head, $most_literals positive and $most_literals naf literals"
printf '1.\n2 if not %s.\n' "$(seq -s ' and not ' $((most_literals + 1)))" >nafs.txt
refused_rules 4 12 nafs.txt " (rule 2, line 2)$counts" nafs.txt
ranges="; atoms run from 1 to $last_atom, tags from 1 to $last_tag; a source has no derived and no rule-defeated marks"
printf '1.\n2\n or %s.\n' $((last_atom + 1)) >literal.txt
refused_rules 5 24 literal.txt " (rule 2, line 2)$ranges" literal.txt
printf 'S:\0\0\0\0\0S:\0\0\1\0\0\4\0\1\0\1' >literal.rules
refused_rules 5 14 literal.rules " (record 2, from byte 7)$ranges" literal.rules
echo "1. tag $((last_tag + 1)): 1." >tag.txt
refused_rules 6 12 tag.txt " (rule 2, line 1); tags run from 1 to $last_tag, and a strict rule has tag 0" tag.txt
echo 'tag 1: defeated(1, 2).' >mark.txt
refused_rules 7 0 mark.txt ", or a defeat mark in its head (rule 1, line 1)" mark.txt
printf '1. drop.\ndrop.\n' >dropped.txt
refused_rules 15 0 dropped.txt " (drop, line 2); \`drop.\` takes back a rule that stands before it" dropped.txt
printf '1.\n2' >open.txt
complains 'open.txt: line 2, column 2: `or`, `if` or `.` expected, and not the end of the text' assemble open.txt
echo 'atom 13 = servo_x.' >other.txt
complains 'other.txt: line 1, column 11: `servo_x` is declared already, for 12' assemble names.txt other.txt -o unwritten
complains 'nowhere.txt: No such file or directory (os error 2)' assemble m3.txt nowhere.txt -o unwritten
complains 'nowhere/m3: No such file or directory (os error 2)' assemble m3.txt -o nowhere/m3
complains 'RULES.. expected, 0 given; usage: aspda assemble RULES.. [-o FILE]' assemble
complains '`--plain` has no place here; usage: aspda assemble RULES.. [-o FILE]' assemble --plain m3.txt
complains '-o needs a file behind it; usage: aspda assemble RULES.. [-o FILE]' assemble m3.txt -o
[ ! -e unwritten ] || fail "a refusal wrote a file"
for number in {2..7} 15; do
    [ "${reached[$number]:-}" ] || fail "refusal $number was not reached"
done
status=0
"$aspda" assemble m3.txt >/dev/full 2>.err || status=$?
[ $status = 2 ] || fail "assemble to a full device: exit status $status, not 2"
failure=1

# A step of an assembly is no part of a program.
complains 'exchanged.txt: line 1, column 1: no atom is declared as `drop`' read exchanged.txt

# What is no text, no file, no usage.
printf '1 or 2.\n3' >open.txt
complains 'open.txt: line 2, column 2: `or`, `if` or `.` expected, and not the end of the text' read open.txt
complains '{1 2}: line 1, column 4: `,` or `}` expected, and not 2' restrict '{1 2}'
complains 'nowhere.txt: No such file or directory (os error 2)' read nowhere.txt
complains 'nowhere/m1.plain: No such file or directory (os error 2)' translate m1.txt -o nowhere/m1.plain
complains '`two` is no rule number' show m3.txt two
complains 'no command given; see aspda --help'
complains 'there is no command `solve`; see aspda --help' solve m3.txt
complains 'PROGRAM and SET expected, 1 given; usage: aspda check [--plain] PROGRAM SET [-o FILE]' check m3.txt
complains '`--plain` has no place here; usage: aspda translate SOURCE [-o FILE]' translate --plain m3.txt
complains '-o needs a file behind it; usage: aspda restrict SET [-o FILE]' restrict '{}' -o
complains '-o OUT is missing; usage: aspda convert [--plain] IN -o OUT' convert m3.txt
"$aspda" read m3.txt >/dev/full 2>.err && fail "a full device is no failure"

# Help: every command in the list and by itself.
run 0 --help
cp .out help
for command in read show translate quotient extend restrict check convert aspif expand assemble; do
    run 0 $command --help
    usage=$(head -n 1 .out)
    [[ $usage == "aspda $command "* ]] && grep -qF "$usage " help || fail "aspda $command --help"
done

echo "command.sh: $runs runs of the command, all as expected"
