# The desk: strict in what it reads, an answer to every line as soon as it is there, and a status that says whether all was right.
. tests/common/missing.bash
work=$(mktemp -d) || exit 2
trap 'rm -rf "$work"' EXIT
sheet=crates/desk/stdin

# desk: the program, on this standard input, ended where it does not end by itself
desk() { timeout 120 ./run desk; }

# A build first, so that no time limit below counts one.
if ! ./run desk </dev/null >"$work/out" 2>"$work/errors"; then
    echo "FAILED desk: $(tail -n 1 "$work/errors")"
    exit 0
fi

# answers NAME STATUS: on this standard input the desk ends with this status, and writes what stands in $work/wanted
answers() {
    local status
    desk >"$work/out" 2>"$work/errors"
    status=$?
    if [ "$status" -ne "$2" ]; then
        echo "FAILED desk, $1: status $status, and it wrote $(tail -n 2 "$work/out" | tr '\n' '|')"
    elif ! cmp -s "$work/out" "$work/wanted"; then
        echo "FAILED desk, $1: it wrote $(diff "$work/wanted" "$work/out" | sed -n 's/^> //p' | head -n 3 | tr '\n' '|')"
    else
        echo "ok desk, $1"
    fi
}

# The whole sheet, and what becomes of it where one byte of one expectation is another.
cp crates/desk/stdout "$work/wanted"
answers "the bench sheet" 0 <"$sheet"
line=$(grep -n -m 1 -e '-> number 0, reply' "$sheet" | cut -d : -f 1)
sed "${line}s/reply 0A/reply 0B/" "$sheet" | desk >"$work/out" 2>&1
status=$?
if [ "$status" -eq 1 ] && grep -q "^line $line: not as expected: reply byte 0 is 0A, expected 0B\$" "$work/out" &&
    [ "$(grep -c ': not as expected: ' "$work/out")" -eq 1 ]; then
    echo "ok desk, a sheet with one wrong expectation"
else
    echo "FAILED desk, a sheet with one wrong expectation: status $status, $(grep -m 2 '^line' "$work/out" | tr '\n' '|')"
fi

# Lines that are not understood: each is told with its number, does nothing, and is no check.
faulty=$work/faulty
cat >"$faulty" <<'LINES'
walrus compatible|'walrus' is not a statement; help lists them
reply 0A|'reply' is not a statement; help lists them
Packet 1B|'Packet' is not a statement; help lists them
12|'12' is not a statement; help lists them
-> number 0|'->' stands where a word is wanted
packet 1B 00 0G|'0G' is no word of the desk, and no number of one to sixteen hexadecimal digits
packet 1B 100|'100' is too large here
packet 1B number 0|'number' stands where a number, a comma or the line's end is wanted
packet 1B ->|the line's end stands where a word is wanted
packet 1B -> 0|'0' stands where a word is wanted
packet 1B -> number|the line's end stands where a number is still wanted
packet 1B -> number 3,|the line's end stands where a word is wanted
packet 1B -> number A|'A' is no answer number: those are 0 to 14 and 18, and the only numbers in decimal
packet 1B -> number 15|'15' is no answer number: those are 0 to 14 and 18, and the only numbers in decimal
plan -> number 17|'17' is no answer number: those are 0 to 14 and 18, and the only numbers in decimal
plan -> number 1E|'1E' is too large here
packet 1B -> number 19|'19' is too large here
packet 1B -> number 7|'7' is given no more: a broken list is 11 or 12, with its place
walk extended -> number 7|'7' is given no more: a broken list is 11 or 12, with its place
walk extended -> number 12, place|the line's end stands where a number is still wanted
walk extended -> number 12, place 100 104|'104' is a number too many
walk extended -> number 12, place 1000|'1000' is too large here
walk extended -> number 12, place 100, place 100|'place' says again what is expected already
walk extended -> place 100, number 12|'place' stands where the expected number is wanted first
packet 1B -> number 3, place 100|'place' cannot be expected of this
packet 1B -> number 3 4|'4' is a number too many
packet 1B -> number 3, number 3|'number' says again what is expected already
packet 1B -> number 3, forgotten, captured 05 03|'captured' says again what is expected already
packet 1B -> number 3, ordinary 004 51, ordinary 004 51|'ordinary' says again what is expected already
walk extended -> number 0, offsets 100, steps 1 100 4|'steps' says again what is expected already
packet 1B -> captured 05 03, number 3|'captured' stands where the expected number is wanted first
packet 1B -> number 3, offsets 040|'offsets' cannot be expected of this
packet 1B -> number 3 -> number 3|'->' stands a second time
packet 1B, 00|',' stands outside an expectation
packet 1B -> number 3, ordinary FFE 01 02 03|'03' does not fit: a space ends at FFF
ordinary FFF 01 02|'02' does not fit: a space ends at FFF
show ordinary FF8 9|'9' does not fit: a space ends at FFF
ordinary 1000 01|'1000' is too large here
ordinary 004|the line's end stands where a number is still wanted
ordinary 004 -> number 0|'->' stands where a number is still wanted
fresh -> number 0|'->' stands behind a statement that has no answer to expect
fresh 1|'1' is a number too many
function 100|'100' is too large here
captured 05|the line's end stands where a number is still wanted
take|the line's end stands where the name of a list, a space or a function is wanted
take 1|'1' stands where the name of a list, a space or a function is wanted
take ordinary|'ordinary' stands where the name of a list, a space or a function is wanted
take second|'second' is no word of the desk, and no number of one to sixteen hexadecimal digits
take alternate 1|'1' is a number too many
take primary alternate|'alternate' stands where a number, a comma or the line's end is wanted
take alternate -> number 0|'->' stands behind a statement that has no answer to expect
primary|'primary' is not a statement; help lists them
alternate 1 3|'alternate' is not a statement; help lists them
walk primary|'primary' stands where the name of a list, a space or a function is wanted
dvsec alternate 100|'alternate' stands where the name of a list, a space or a function is wanted
show primary 004 4|'primary' stands where the name of a list, a space or a function is wanted
packet 1B -> number 3, alternate 1 3|'alternate' cannot be expected of this
packet 1B -> number 3, primary|'primary' cannot be expected of this
packet 1B -> number 3, take alternate|'take' cannot be expected of this
dual ordinary 040 -> number 0, alternate 1|the line's end stands where a number is still wanted
walk|the line's end stands where the name of a list, a space or a function is wanted
walk ordinary|'ordinary' stands where the name of a list, a space or a function is wanted
walk 034|'034' stands where the name of a list, a space or a function is wanted
walk compatible extended|'extended' stands where a number, a comma or the line's end is wanted
dvsec compatible 100|'compatible' stands where the name of a list, a space or a function is wanted
dvsec ordinary|the line's end stands where a number is still wanted
merge 01 02|the line's end stands where a number is still wanted
merge 0 0 0 0 0 0 0 0 0 0 0 0 0 0 0 0 0 -> bytes 00 00 00|the line's end stands where a number is still wanted
merge 0 0 0 0 0 0 0 0 0 0 0 0 0 0 0 0 1F|'1F' is too large here
merge 0 0 0 0 0 0 0 0 0 0 0 0 0 0 0 0 -> bytes 00 00 00 00|'->' stands where a number is still wanted
merge 0 0 0 0 0 0 0 0 0 0 0 0 0 0 0 0 0 1|'1' is a number too many
merge 0F 0F 0F 0F F0 F0 F0 F0 A5 A5 A5 A5 0F -> bytes AF AF AF AF|'->' stands where four numbers more are wanted: merge has seventeen, with four marks behind the rules
sizes 1000 1000 1000 1000|the line's end stands where two numbers more are wanted: sizes has six, each space with its rules and its marks
sizes 1000 1000 1000|the line's end stands where a number is still wanted
sizes 1000 1000 1000 1000 1000|the line's end stands where a number is still wanted
sizes 1000 1000 1000 1000 1000 1000 0|'0' is a number too many
sizes 1000 1000 1002 1000 1000 1000|'1002' is too large here
ordinary-marks FFF 01 02|'02' does not fit: a space ends at FFF
trusted-marks 1000 01|'1000' is too large here
trusted-marks 004|the line's end stands where a number is still wanted
ordinary-marks 004 01 -> number 0|'->' stands behind a statement that has no answer to expect
show ordinary-marks FF8 9|'9' does not fit: a space ends at FFF
show marks 004 4|'marks' is no word of the desk, and no number of one to sixteen hexadecimal digits
dvsec trusted-marks 100|'trusted-marks' stands where the name of a list, a space or a function is wanted
packet 1B -> number 3, ordinary-marks 004 51|'ordinary-marks' cannot be expected of this
dvsec ordinary 100 -> number 0, body FFC 6|'6' does not fit: a space ends at FFF
chain extended 0 100 4 0|the chain does not fit: its headers leave the space, or a pointer is too large
chain extended 2 FFC 4 0|the chain does not fit: its headers leave the space, or a pointer is too large
chain extended 1 FFD 4 0|the chain does not fit: its headers leave the space, or a pointer is too large
chain compatible 1 40 4 140|the chain does not fit: its headers leave the space, or a pointer is too large
chain compatible 40 40 4 0|the chain does not fit: its headers leave the space, or a pointer is too large
A 11111111111111111|'11111111111111111' is no word of the desk, and no number of one to sixteen hexadecimal digits
edition|the line's end stands where a number is still wanted
edition 1 2|'2' is a number too many
edition 2 -> number 4|'->' stands behind a statement that has no answer to expect
edition 10000000000000002|'10000000000000002' is no word of the desk, and no number of one to sixteen hexadecimal digits
edition two|'two' is no word of the desk, and no number of one to sixteen hexadecimal digits
packet 84 -> number 3, edition 2|'edition' cannot be expected of this
ports 05 08|the line's end stands where a number is still wanted
ports 05 08 1 0A|the line's end stands where a number is still wanted
ports 05 100 1|'100' is too large here
ports 05 08 1 -> number 0|'->' stands behind a statement that has no answer to expect
port 05 08 1|'port' is not a statement; help lists them
route 05 -> port 0|'port' stands where the expected number is wanted first
route 05 -> number 3, port 0 1|'1' is a number too many
route 05 -> number 3, reply 0A|'reply' cannot be expected of this
packet 1B -> number 3, leaves 1B|'leaves' cannot be expected of this
ask 44 01 00 07 05 03 0 004|the line's end stands where a number is still wanted
ask 44 01 00 07 05 03 0 004 F|the line's end stands where a number is still wanted
ask 5B 01 00 07 05 03 0 004 F -> number 0|'->' stands where a number is still wanted
ask 44 01 00 07 05 03 0 004 F 11 22 33|the line's end stands where a number is still wanted
ask 44 01 00 07 05 03 0 004 F 11 -> number 0|'->' stands where a number is still wanted
ask 44 01 00 07 05 03 0 004 F 11 22 33 44 55|'55' is a number too many
ask 44 0100 07 05 03 0 004 F|'0100' is too large here
ask 44 01 00 07 05 03 0 004 100|'100' is too large here
ask 04 01 00 07 05 03 0 004 F -> writes 04|'writes' stands where the expected number is wanted first
ask 04 01 00 07 05 03 0 004 F -> number 0, writes 04, writes 04|'writes' says again what is expected already
ask 04 01 00 07 05 03 0 004 F -> number 0, done|'done' cannot be expected of this
packet 1B -> number 3, writes 1B|'writes' cannot be expected of this
writes 1B|'writes' is not a statement; help lists them
completion 0A 100|'100' is too large here
completion 0A -> number 3, reply 0A|'reply' cannot be expected of this
completion 0A -> number 3, captured 05 03|'captured' cannot be expected of this
completion 0A -> number 3, completer 05|the line's end stands where a number is still wanted
completion 0A -> number 3, tag 07 08|'08' is a number too many
completion 0A -> number 3, done 1|'1' is a number too many
completion 0A -> number 3, done, shown 00 00 00 00|'shown' says again what is expected already
completion 0A -> number 3, shown 00 00 00 00, unsupported|'unsupported' says again what is expected already
completion 0A -> number 3, unsupported, done|'done' says again what is expected already
completion 0A -> done, number 3|'done' stands where the expected number is wanted first
records|the line's end stands where a number is still wanted
records 22|'22' is too large here
records 1 2|'2' is a number too many
records 0 -> number 0|'->' stands behind a statement that has no answer to expect
record 0 3F 21 1 C 100000000 0|the line's end stands where a number is still wanted
record 21 0 0 0 0 0 0 0|'21' is too large here
record 0 0 0 0 0 0 0 0 7|'7' is a number too many
record 0 0 0 0 0 0 0 11111111111111111|'11111111111111111' is no word of the desk, and no number of one to sixteen hexadecimal digits
record 0 0 0 0 0 0 0 0|the list of records has no such port: records C begins one for C ports
keep trusted 200 0|the list of records has no such port: records C begins one for C ports
keep trusted 200 0 -> number 8|the list of records has no such port: records C begins one for C ports
keep trusted 200|the line's end stands where a number is still wanted
keep trusted 200 21|'21' is too large here
keep trusted 200 0 1|'1' is a number too many
keep 200 0|'200' stands where the name of a list, a space or a function is wanted
keep trusted-rules 200 0|'trusted-rules' stands where the name of a list, a space or a function is wanted
multicast|the line's end stands where the name of a list, a space or a function is wanted
multicast compatible 100|'compatible' stands where the name of a list, a space or a function is wanted
multicast ordinary|the line's end stands where a number is still wanted
multicast ordinary 100 200|'200' is a number too many
multicast ordinary 100 -> fields 0 0 0 0 0 0 0|'fields' stands where the expected number is wanted first
multicast ordinary 100 -> number 0, fields 0 0 0 0 0 0|the line's end stands where a number is still wanted
multicast ordinary 100 -> number 0, fields 0 0 0 0 0 0 0 7|'7' is a number too many
multicast ordinary 100 -> number 0, header 0 0 0 0|'header' cannot be expected of this
multicast ordinary 100 -> number 0, group 0|'group' cannot be expected of this
dvsec ordinary 100 -> number 0, fields 0 0 0 0 0 0 0|'fields' cannot be expected of this
judge 0|the line's end stands where a number is still wanted
judge 0 0 0|'0' is a number too many
judge 0 11111111111111111|'11111111111111111' is no word of the desk, and no number of one to sixteen hexadecimal digits
judge 0 0 -> group 0, number 0|'group' stands where the expected number is wanted first
judge 0 0 -> number 0, group|the line's end stands where a number is still wanted
judge 0 0 -> number 0, group 40|'40' is too large here
judge 0 0 -> number 0, group 0, leaves-by 20|'20' is too large here
judge 0 0 -> number 0, group 0, dropped 1|'1' is a number too many
judge 0 0 -> number 0, no-hit 1|'1' is a number too many
judge 0 0 -> number 0, group 0, dropped, leaves-by 1|'leaves-by' says again what is expected already
judge 0 0 -> number 0, no-hit, dropped|'dropped' says again what is expected already
judge 0 0 -> number 0, leaves-by 1, no-hit|'no-hit' says again what is expected already
judge 0 0 -> number 0, group 0, group 0|'group' says again what is expected already
judge 0 0 -> number 0, port 0|'port' cannot be expected of this
judge 0 0 -> number 0, fields 0 0 0 0 0 0 0|'fields' cannot be expected of this
route 05 -> number 3, leaves-by 0|'leaves-by' cannot be expected of this
leaves-by 1|'leaves-by' is not a statement; help lists them
no-hit|'no-hit' is not a statement; help lists them
structures 1|the line's end stands where a number is still wanted
structures 1 1|the line's end stands where a number is still wanted
structures 1 1 4 2 1|the line's end stands where a number is still wanted
structures 10000 1 4|'10000' is too large here
structures 1 10000 4|'10000' is too large here
structures 1 1 10000|'10000' is too large here
structures 1 1 4 1 1 10004|'10004' is too large here
structures 1 1 FFFFFFFFFFFFFFFF|'FFFFFFFFFFFFFFFF' is too large here
structures 1 1 4 -> number 0|'->' stands behind a statement that has no answer to expect
structure 1 1 4|'structure' is not a statement; help lists them
more|the line's end stands where a number is still wanted
more 1 1 1|the line's end stands where a number is still wanted
more 1 1 1 4 1|'1' is a number too many
more 3C2 1 1 4|'3C2' is too large here
more 1 10000 1 4|'10000' is too large here
more 1 1 10000 4|'10000' is too large here
more 1 1 1 10004|'10004' is too large here
more 1 1 1 4 -> number 0|'->' stands behind a statement that has no answer to expect
proposal 10000|'10000' is too large here
proposal 100 10100|'10100' is too large here
proposal 100 -> number 0|'->' stands behind a statement that has no answer to expect
move 0|the line's end stands where a number is still wanted
move 0 100 104|'104' is a number too many
move 3C1 100|'3C1' is too large here
move 0 10100|'10100' is too large here
move 0 100|the proposal has no such offset: plan makes one, and so does proposal
plan 1|'1' is a number too many
plan ordinary|'ordinary' stands where a number, a comma or the line's end is wanted
plan -> offsets 100|'offsets' stands where the expected number is wanted first
plan -> number 0, offsets 10000|'10000' is too large here
plan -> number 0, offsets 100, steps 1 100 4|'steps' says again what is expected already
plan -> number 0, place 100|'place' cannot be expected of this
plan -> number 0, headers 100 1 1|'headers' cannot be expected of this
accept 100|'100' is a number too many
accept -> number 0, offsets 100|'offsets' cannot be expected of this
accept -> number 0, headers 100 1 1|'headers' cannot be expected of this
write|the line's end stands where the name of a list, a space or a function is wanted
write extended|'extended' stands where the name of a list, a space or a function is wanted
write ordinary-rules|'ordinary-rules' stands where the name of a list, a space or a function is wanted
write ordinary 100|'100' is a number too many
write ordinary -> headers 100 1 1|'headers' stands where the expected number is wanted first
write ordinary -> number 0, headers|the line's end stands where a number is still wanted
write ordinary -> number 0, headers 100 1|the line's end stands where a number is still wanted
write ordinary -> number 0, headers 100 1 1 104 1|the line's end stands where a number is still wanted
write ordinary -> number 0, headers 100 10000 1|'10000' is too large here
write ordinary -> number 0, headers 100 1 1, headers 100 1 1|'headers' says again what is expected already
write ordinary -> number 0, headers 100 1 1, alike 1 100 4 1 1|'alike' says again what is expected already
write ordinary -> number 0, alike 1 100 4 1 1, headers 100 1 1|'headers' says again what is expected already
write ordinary -> number 0, alike 1 100 4 1|the line's end stands where a number is still wanted
write ordinary -> number 0, alike 3C2 100 4 1 1|'3C2' is too large here
write ordinary -> number 0, headers FFD 1 1|a header that is expected does not fit: its offset is over FFC, or its version over F
write ordinary -> number 0, headers 100 1 10|a header that is expected does not fit: its offset is over FFC, or its version over F
write ordinary -> number 0, headers 100 1 1 1104 1 1|a header that is expected does not fit: its offset is over FFC, or its version over F
write ordinary -> number 0, alike 3C1 100 4 1 1|a header that is expected does not fit: its offset is over FFC, or its version over F
write ordinary -> number 0, alike 1 100 4 1 10|a header that is expected does not fit: its offset is over FFC, or its version over F
write ordinary -> number 0, ordinary 100 01|'ordinary' cannot be expected of this
write ordinary -> number 0, offsets 100|'offsets' cannot be expected of this
walk extended -> number 0, headers 100 1 1|'headers' cannot be expected of this
headers 100 1 1|'headers' is not a statement; help lists them
alike 1 100 4 1 1|'alike' is not a statement; help lists them
end|a sheet ends that has not begun
LINES
{
    cut -d '|' -f 1 "$faulty"
    echo 'show ordinary FF0 10'
    echo 'packet 1B 00 00 01 01 00 08 0F 05 18 00 04 -> number 0, reply 0A 00 00 00 00 00 20 04 01 00 08 00'
} >"$work/in"
awk -F '|' '{ print "line " NR ": " $2 }
    END { print "FF0: 00 00 00 00 00 00 00 00 00 00 00 00 00 00 00 00\nas expected\nchecks 1, as expected 1, lines not understood " NR }' "$faulty" >"$work/wanted"
answers "$(wc -l <"$faulty") lines that are not understood, and a board that is as before" 1 <"$work/in"
# What was lent to the next question is not lent to the one after a line that was not understood.
printf 'ok\nline 2: %s\nas expected\nchecks 1, as expected 1, lines not understood 1\n' "'walrus' is not a statement; help lists them" >"$work/wanted"
printf 'room F\nwalrus\npacket 1B 00 00 -> number 3\n' | answers "a mistake after room" 1

# A number in lower case is one, blanks and comments change nothing, and a sheet from another system reads the same.
{
    printf 'reset -> forgotten # a comment, -> number 9\n\n   \t\n# packet\n'
    printf 'merge 0f 0f 0f 0f f0 f0 f0 f0 0c 0c 0c 0c a5 a5 a5 a5 0f  ->  bytes\tab ab ab ab\r\n'
} >"$work/in"
printf 'as expected\nas expected\nchecks 2, as expected 2, lines not understood 0\n' >"$work/wanted"
answers "lower case, blanks, comments" 0 <"$work/in"

# Marks are put and shown as rules are, and a new board has none. A bit that is marked twice is told with its space and its byte, the first of each; a buffer
# is looked at as far as it is lent.
cat >"$work/in" <<'LINES'
open
ordinary-marks 010 0F 03
trusted-marks FFF 80
show ordinary-marks 00F 4
show trusted-marks FFE 2
packet
ordinary-rules 010 F0
sizes 1000 1000 1000 1000 1000 FFF
packet
fresh
show ordinary-marks 00F 4
packet -> number 3
LINES
cat >"$work/wanted" <<'LINES'
ok
ok
ok
00F: 00 0F 03 00
FFE: 00 80
number 1: badly described: a buffer of another size than 1000, a number or an offset out of range, an edition other than 1 and 2, or a bit that is writable and marked
  ordinary 010: rule FF and mark 0F have a bit in common
  trusted FFF: rule FF and mark 80 have a bit in common
  captured: nothing
  no byte changed
ok
ok
number 1: badly described: a buffer of another size than 1000, a number or an offset out of range, an edition other than 1 and 2, or a bit that is writable and marked
  ordinary 011: rule FF and mark 03 have a bit in common
  captured: nothing
  no byte changed
ok
00F: 00 00 00 00
as expected
checks 1, as expected 1, lines not understood 0
LINES
answers "marks, and a bit that is marked twice" 0 <"$work/in"

# An edition that is none is told as it was typed, however many digits it has. A 4 for bit 7 alone is told as that; one for a code that is unknown without it
# too as before, and so is one of the switch, which has no edition. What a packet with bit 7 asks for is told under edition 1.
cat >"$work/in" <<'LINES'
open
edition 0
packet
edition 100000002
trusted-marks FFF 80
packet 04 00 00 01 01 00 08 0F 05 18 00 04
open
edition 2
packet 84 00 00 01 01 00 08 0F 05 18 00 04
packet DB 10 00 01 01 00 07 0F 05 18 00 04
packet 80 00 00 01 01 00 08 0F 05 18 00 04
packet 00 00 00 01 01 00 08 0F 05 18 00 04
packet 84 00 00 01 01 00 08 0F 05 18 00
ask 04 01 00 08 05 03 0 004 F
ports 05 05 0
route 85 00 00 01 01 00 08 0F 05 18 00 04
route 80 00 00 01 01 00 08 0F 05 18 00 04
route 9B 00 00 01 01 00 08 0F 05 18 00 04
packet 84 00 00 01 01 00 08 0F 05 18 00 04 -> number 0
edition 1
packet 84 00 00 01 01 00 08 0F 05 18 00 04
packet 80 00 00 01 01 00 08 0F 05 18 00 04
LINES
bad='number 1: badly described: a buffer of another size than 1000, a number or an offset out of range, an edition other than 1 and 2, or a bit that is writable and marked'
set_bit='number 4: bit 7 of byte 0 is set: under edition 2 it belongs to the format field, and none of the six has it'
unknown='number 4: byte 0 without bit 7 is none of the six type codes'
asks='bus 05 device 03 function 0, offset 004, enables 1111, requester 01 00 tag 08'
stays='  captured: nothing
  no byte changed'
cat >"$work/wanted" <<LINES
ok
ok
$bad
  edition 0 is neither 1 nor 2
$stays
ok
ok
$bad
  edition 100000002 is neither 1 nor 2
  trusted FFF: rule FF and mark 80 have a bit in common
  asks: Type 0 read, $asks
$stays
ok
ok
$set_bit
$stays
$set_bit
$stays
$unknown
$stays
$unknown
$stays
number 3: the packet has fewer than 12 bytes
$stays
writes: 04 00 00 01 01 00 08 0F 05 18 00 04
number 0: answered
  asks: Type 0 read, $asks
  reply: 4A 00 00 01 00 00 00 04 01 00 08 00 51 51 51 51
  says: successful; completer 00 00, requester 01 00 tag 08, data 51 51 51 51
$stays
  reads: success with data 51 51 51 51; completer 00 00, requester 01 00 tag 08
ok
number 0: routed
  asks: Type 1 read, $asks
  leaves: port 0, as Type 0: 84 00 00 01 01 00 08 0F 05 18 00 04
$unknown
number 4: a trusted request, and its port does not support TCS routing
  asks: trusted read, $asks
line 19: not as expected: number 4, expected 0
$set_bit
$stays
ok
number 0: answered
  asks: Type 0 read, $asks
  reply: 4A 00 00 01 00 00 00 04 01 00 08 00 51 51 51 51
  says: successful; completer 00 00, requester 01 00 tag 08, data 51 51 51 51
$stays
$unknown
$stays
checks 1, as expected 0, lines not understood 0
LINES
answers "editions, and a 4 for bit 7" 1 <"$work/in"

# Two functions: whose capture and whose bytes are told, in an answer and where something is not as expected; which causes a 1 has, and whose; the function that is
# taken is at hand again after each question, and a new board has one.
cat >"$work/in" <<'LINES'
open
take alternate
packet 44 00 00 01 01 00 07 0F 05 19 00 04 11 22 33 44 -> number 0, reply 0A 00 00 00 05 19 00 04 01 00 07 00
packet 44 00 00 01 01 00 07 0F 05 18 00 04 11 22 33 44 -> number 0, reply 0A 00 00 00 05 18 00 04 01 00 07 00, captured 05 02, ordinary 004 11 22 33 45
packet 1B 00 00 01 01 00 08 0F 06 19 00 04
packet 1B 00 00 01 01 00 08 0F 06 1A 00 04
packet 5B 00 00 01 01 00 07 0F 05 19 00 10 21 43 65 87
show trusted 010 4
reset -> captured 05 03
reset
packet 1B 00 00 01 01 00 08 0F 05 1A 00 04
ask 44 01 00 07 05 03 1 008 F 01 02 03 04 -> number 0, writes 44 00 00 01 01 00 07 0F 05 19 00 08 01 02 03 04, reply 0A 00 00 00 05 19 00 04 01 00 07 00, captured 05 03
ordinary-marks 010 0F
take primary
trusted-marks FFF 80
function 1
edition 3
packet 04 00 00 01 01 00 08 0F 05 19 00 04
edition 1
function 0
trusted-marks FFF 00
sizes 1000 1000 1000 1000 1000 FFF
packet 04 00 00 01 01 00 08 0F 05 18 00 04
take alternate
ordinary-rules 010 F0
packet 04 00 00 01 01 00 08 0F 05 19 00 04 -> number 0, reply 4A 00 00 01 05 19 00 04 01 00 08 00 11 22 33 44
structures 1 1 4
proposal 100
write trusted
open
packet 04 00 00 01 01 00 08 0F 05 19 00 04
reset
LINES
cat >"$work/wanted" <<'LINES'
ok
ok
line 3: not as expected: captured primary nothing, alternate bus 05 device 03, expected primary nothing, alternate nothing
line 3: not as expected: alternate ordinary 004: 11 22 33 44, expected 51 51 51 51
number 0: answered
  asks: Type 0 write, bus 05 device 03 function 1, offset 004, enables 1111, data 11 22 33 44, requester 01 00 tag 07
  reply: 0A 00 00 00 05 19 00 04 01 00 07 00
  says: successful; completer 05 19, requester 01 00 tag 07
  captured: primary nothing, alternate bus 05 device 03
  alternate ordinary 004: 51 51 51 51 -> 11 22 33 44
line 4: not as expected: captured primary bus 05 device 03, alternate bus 05 device 03, expected primary bus 05 device 02, alternate bus 05 device 03
line 4: not as expected: primary ordinary 004: 11 22 33 44, expected 11 22 33 45
number 0: answered
  asks: Type 0 write, bus 05 device 03 function 0, offset 004, enables 1111, data 11 22 33 44, requester 01 00 tag 07
  reply: 0A 00 00 00 05 18 00 04 01 00 07 00
  says: successful; completer 05 18, requester 01 00 tag 07
  captured: primary bus 05 device 03, alternate bus 05 device 03
  primary ordinary 004: 51 51 51 51 -> 11 22 33 44
number 0: answered
  asks: trusted read, bus 06 device 03 function 1, offset 004, enables 1111, requester 01 00 tag 08
  reply: 0A 00 00 00 05 19 20 04 01 00 08 00
  says: unsupported request (UR): a trusted request that does not name the captured bus and device and the board's function; completer 05 19, requester 01 00 tag 08
  captured: primary bus 05 device 03, alternate bus 05 device 03
  no byte changed
number 0: answered
  asks: trusted read, bus 06 device 03 function 2, offset 004, enables 1111, requester 01 00 tag 08
  reply: 0A 00 00 00 05 18 20 04 01 00 08 00
  says: unsupported request (UR): a request for neither function, which the primary answers; completer 05 18, requester 01 00 tag 08
  captured: primary bus 05 device 03, alternate bus 05 device 03
  no byte changed
number 0: answered
  asks: trusted write, bus 05 device 03 function 1, offset 010, enables 1111, data 21 43 65 87, requester 01 00 tag 07
  reply: 0A 00 00 00 05 19 00 04 01 00 07 00
  says: successful; completer 05 19, requester 01 00 tag 07
  captured: primary bus 05 device 03, alternate bus 05 device 03
  alternate trusted 010: 72 72 72 72 -> 21 43 65 87
010: 21 43 65 87
line 9: not as expected: captured primary nothing, alternate nothing, expected primary bus 05 device 03, alternate bus 05 device 03
  captured: primary nothing, alternate nothing
  captured: primary nothing, alternate nothing
number 0: answered
  asks: trusted read, bus 05 device 03 function 2, offset 004, enables 1111, requester 01 00 tag 08
  reply: 0A 00 00 00 00 00 20 04 01 00 08 00
  says: unsupported request (UR): a request for neither function, which the primary answers; completer 00 00, requester 01 00 tag 08
  captured: primary nothing, alternate nothing
  no byte changed
line 12: not as expected: alternate ordinary 008: 01 02 03 04, expected 51 51 51 51
writes: 44 00 00 01 01 00 07 0F 05 19 00 08 01 02 03 04
number 0: answered
  asks: Type 0 write, bus 05 device 03 function 1, offset 008, enables 1111, data 01 02 03 04, requester 01 00 tag 07
  reply: 0A 00 00 00 05 19 00 04 01 00 07 00
  says: successful; completer 05 19, requester 01 00 tag 07
  captured: primary nothing, alternate bus 05 device 03
  alternate ordinary 008: 51 51 51 51 -> 01 02 03 04
  reads: success without data; completer 05 19, requester 01 00 tag 07
ok
ok
ok
ok
ok
number 1: badly described: functions with the same number, a buffer of another size than 1000, a number or an offset out of range, an edition other than 1 and 2, or a bit that is writable and marked
  both functions have the number 1
  edition 3 is neither 1 nor 2
  alternate ordinary 010: rule FF and mark 0F have a bit in common
  primary trusted FFF: rule FF and mark 80 have a bit in common
  asks: Type 0 read, bus 05 device 03 function 1, offset 004, enables 1111, requester 01 00 tag 08
  captured: primary nothing, alternate bus 05 device 03
  no byte changed
ok
ok
ok
ok
number 1: badly described: functions with the same number, a buffer of another size than 1000, a number or an offset out of range, an edition other than 1 and 2, or a bit that is writable and marked
  alternate ordinary 010: rule FF and mark 0F have a bit in common
  asks: Type 0 read, bus 05 device 03 function 0, offset 004, enables 1111, requester 01 00 tag 08
  captured: primary nothing, alternate bus 05 device 03
  no byte changed
ok
ok
as expected
ok
ok
number 0: written
extended 1
100 0001 1
  alternate trusted 100: 72 72 72 72 -> 01 00 01 00
ok
number 0: answered
  asks: Type 0 read, bus 05 device 03 function 1, offset 004, enables 1111, requester 01 00 tag 08
  reply: 0A 00 00 00 00 00 20 04 01 00 08 00
  says: unsupported request (UR): a Type 0 request for another function; completer 00 00, requester 01 00 tag 08
  captured: nothing
  no byte changed
  captured: nothing
checks 5, as expected 1, lines not understood 0
LINES
answers "two functions" 1 <"$work/in"

# What the records of ports say in words, and why an address is not judged: each cause.
cat >"$work/in" <<'LINES'
judge 0 0
records 2
judge 2 0
record 1 40 41 2 40 1 0 0
judge 0 0
record 1 3F 41 2 40 1 0 0
judge 0 0
record 1 3F 41 1 40 1 0 0
judge 0 0
record 1 3F 41 1 B 1 0 0
judge 0 0
record 1 3F 41 1 B 1000 0 0
judge 0 0
record 1 3F 3F 1 B 1000 0 0
judge 0 0
record 1 3F 3F 1 3F FFFFFFFFFFFFF000 8000000100000001 0
judge 0 0
judge 1 0
judge 1 FFFFFFFFFFFFFFFF
record 0 3F 0 1 C 0 0 0
judge 0 0
judge 0 FFFFFFFFFFFFFFFF
records 21
judge 21 0
LINES
bad='number 1: badly described: too many records, no such port, or a record that no capability gives'
cat >"$work/wanted" <<LINES
$bad
  no port 0: the list has 0 records, counted from port 0
ok
$bad
  no port 2: the list has 2 records, counted from port 0
ok
$bad
  port 1: Max Group is over 3F
ok
$bad
  port 1: Enable is neither 0 nor 1
ok
$bad
  port 1: the index is over 3F
ok
$bad
  port 1: the base is no multiple of 1000
ok
$bad
  port 1: Num Group is over Max Group
ok
$bad
  port 1: the index is under C while enabled
ok
number 0: answered
  no hit: port 0 is not enabled
number 0: answered
  no hit: the address is below FFFFFFFFFFFFF000, the base of port 1
number 0: answered
  group 0, leaves by no port
ok
number 0: answered
  group 0, leaves by ports: 1
number 0: answered
  no hit: it would be in group FFFFFFFFFFFFF, and the last one of port 0 is 0
ok
$bad
  the list has 21 records, and may have 20
checks 0, as expected 0, lines not understood 0
LINES
answers "an address, and why it is not judged" 0 <"$work/in"
# A capability in words, and of one that is refused for its fields these; what is not as expected, in numbers of every width.
cat >"$work/in" <<'LINES'
records 2
ordinary 100 12 00 01 00 3F 00 3E 80 3F F0 FF FF FF FF FF FF 01 00 00 80 01 00 00 80 00 00 01 00 00 00 00 00
keep ordinary 100 1
ordinary 106 3E 00 0B
multicast ordinary 100 -> number 0, fields 3F 3E 1 3F FFFFFFFFFFFFE000 8000000180000000 FFFF
ordinary 104 3D
keep ordinary 100 0
judge 1 FFFFFFFFFFFFFFFF -> number 0, group 1, leaves-by 1 1F
judge 1 FFFFFFFFFFFFFFFF -> number 0, no-hit
LINES
cat >"$work/wanted" <<'LINES'
ok
ok
number 0: answered
  Max Group 3F, Num Group 3E, enabled
  base FFFFFFFFFFFFF000, index 3F: the window of a group has 8000000000000000 bytes
  Receive 8000000180000001, groups: 0 1F 20 3F
  Block All 10000, groups: 10
  kept: the record of port 1
ok
line 5: not as expected: field 0, expected 1
line 5: not as expected: field B, expected 3F
line 5: not as expected: field FFFFFFFFFFFFF000, expected FFFFFFFFFFFFE000
line 5: not as expected: field 8000000180000001, expected 8000000180000000
line 5: not as expected: field 10000, expected FFFF
number 0: answered
  Max Group 3F, Num Group 3E, not enabled
  base FFFFFFFFFFFFF000, index B: the window of a group has 800 bytes
  Receive 8000000180000001, groups: 0 1F 20 3F
  Block All 10000, groups: 10
ok
number 13: Num Group is over Max Group, or the index is under C while enabled
  Max Group 3D, Num Group 3E, not enabled, index B
line 8: not as expected: group 0, expected 1
line 8: not as expected: ports none, expected 1 1F
number 0: answered
  group 0, leaves by no port
line 9: not as expected: says leaves-by, expected no-hit
line 9: not as expected: group 0, expected none
number 0: answered
  group 0, leaves by no port
checks 3, as expected 0, lines not understood 0
LINES
answers "capabilities, and what is not as expected of them" 1 <"$work/in"

# The structures of a new board: why nothing is proposed, each cause at the first structure that has it, and what is kept.
cat >"$work/in" <<'LINES'
plan
structures 1 1 4 0 10 3
plan
structures 1 1 4 1 10 3
accept
structures 1 1 4 1 F 3
write ordinary
structures 1 1 4 1 F F01
plan
structures 1 1 5 2 F EFA
plan
structures 1 1 5 2 F EF8
room 1
plan
plan
more 3BF 3 0 4
plan
accept
more 1 3 0 4
structures 1 1 5 2 F EF8
accept
LINES
bad='number 1: badly described: no structure or more than 3C0; one with ID 0, a version over F, or a length under 4 or over F00; or a space of another size than 1000'
cat >"$work/wanted" <<LINES
$bad
  the list has no structure
ok
$bad
  structure 1: its ID is 0
ok
$bad
  structure 1: its version is over F
ok
$bad
  structure 1: its length is under 4
  no byte changed
ok
$bad
  structure 1: its length is over F00
ok
number 14: no layout: no proposal for these structures is accepted
  the structures need F02 bytes, and there are F00
ok
ok
number 2: no room: the list room has fewer entries than there are structures
  the room has 1 entries, and there are 2 structures
number 0: a proposal, which is kept
  100: ID 0001 version 1 length 5
  108: ID 0002 version F length EF8
ok
$bad
  the list has 3C1 structures, and may have 3C0
$bad
  the list has 3C1 structures, and may have 3C0
line 19: the list of structures has no place for so many: there are 3C1
ok
number 0: accepted
checks 0, as expected 0, lines not understood 1
LINES
answers "structures, and why nothing is proposed" 1 <"$work/in"
# Why a proposal is not accepted: the first rule of the request that it breaks, and the first structure there. What is written, and what is not as expected.
cat >"$work/in" <<'LINES'
structures 1 1 5 2 2 C 3 3 4
proposal 104 10A
accept
proposal 104 10A 108
accept
proposal 100 10A 109
accept
proposal 100 104 104
accept
proposal 100 108 104
accept
proposal 100 104 FFC
accept
proposal 100 108 110
accept
proposal 100 FF8 FFC
accept
proposal 100 FF8 1004
accept
proposal 100 FF4 1000
accept
proposal 100 FE8 FFC
accept
write ordinary
write ordinary
sizes 1001 1000 1000 1000 1000 1000
write ordinary
move 2 FF8
write trusted -> number 0, headers 100 1 1 FE8 2 2 FF8 3 4
trusted 100 FF FF FF FF
move 2 FFD
write trusted -> number 0, alike 2 100 EE8 1 1
plan -> number 0, offsets 100 108 114 EEEE
plan -> number 2, steps 3 100 8
LINES
not='number 18: the proposal is not accepted'
cat >"$work/wanted" <<LINES
ok
ok
$not
  the proposal has 2 offsets, and there are 3 structures
ok
$not
  structure 0 at 104: the first is not at 100
ok
$not
  structure 1 at 10A: no multiple of 4
ok
$not
  structure 2 at 104: not above the one before it, at 104
ok
$not
  structure 2 at 104: not above the one before it, at 108
ok
$not
  structure 1 at 104: the one before it ends at 105, and they overlap
ok
$not
  structure 2 at 110: the one before it ends at 114, and they overlap
ok
$not
  structure 2 at FFC: the one before it ends at 1004, and they overlap
ok
$not
  structure 1 at FF8: ends at 1004, past 1000
ok
$not
  structure 2 at 1000: ends at 1004, past 1000
ok
number 0: accepted
number 0: written
extended 3
100 0001 1
FE8 0002 2
FFC 0003 3
  ordinary 100: 00 00 00 00 -> 01 00 81 FE
  ordinary FE8: 00 00 00 00 -> 02 00 C2 FF
  ordinary FFC: 00 00 00 00 -> 03 00 03 00
number 0: written
extended 3
100 0001 1
FE8 0002 2
FFC 0003 3
  no byte changed
ok
$bad
  the space has 1001 bytes
  no byte changed
ok
line 29: not as expected: trusted FF8: 03 00 03 00, expected 03 00 04 00
number 0: written
extended 3
100 0001 1
FE8 0002 2
FF8 0003 3
  trusted 100: 00 00 00 00 -> 01 00 81 FE
  trusted FE8: 00 00 00 00 -> 02 00 82 FF
  trusted FF8: 00 00 00 00 -> 03 00 03 00
ok
ok
line 32: not as expected: number 18, expected 0
line 32: not as expected: trusted 100: FF FF FF FF, expected 01 00 81 FE
line 32: not as expected: trusted FE8: 02 00 82 FF, expected 01 00 01 00
$not
  structure 2 at FFD: no multiple of 4
  no byte changed
line 33: not as expected: count 3, expected 4
number 0: a proposal, which is kept
  100: ID 0001 version 1 length 5
  108: ID 0002 version 2 length C
  114: ID 0003 version 3 length 4
line 34: not as expected: number 0, expected 2
line 34: not as expected: room entry 2 is 0114, expected 0110
number 0: a proposal, which is kept
  100: ID 0001 version 1 length 5
  108: ID 0002 version 2 length C
  114: ID 0003 version 3 length 4
checks 4, as expected 0, lines not understood 0
LINES
answers "a proposal, and why it is not accepted" 1 <"$work/in"
# What is written is shown as the listing shows that space; a build of it first.
./run listing </dev/null >"$work/out" 2>"$work/errors"
cat >"$work/in" <<'LINES'
open
ordinary 006 00
structures 23 1 2C FFFF F 49 3 0 4 A 9 5
plan
write ordinary
show ordinary 000 1000
LINES
desk <"$work/in" >"$work/out" 2>"$work/errors"
sed -n 's/^[0-9A-F]*:\(\( [0-9A-F][0-9A-F]\)*\)$/\1/p' "$work/out" | tr -d ' \n' | sed 's/../\\x&/g' >"$work/escapes"
printf "$(cat "$work/escapes")" >"$work/space"
timeout 60 ./run listing <"$work/space" >"$work/listed" 2>"$work/errors"
sed -n '/^extended/,/^end$/p' "$work/listed" | sed '$d' >"$work/wanted"
sed -n '/^extended/,/^  ordinary/p' "$work/out" | sed '$d' >"$work/shown"
if [ "$(wc -c <"$work/space")" -eq 4096 ] && [ "$(wc -l <"$work/wanted")" -eq 5 ] && cmp -s "$work/shown" "$work/wanted"; then
    echo "ok desk, what is written is shown as the listing shows it"
else
    echo "FAILED desk, what is written is shown as the listing shows it: $(tr '\n' '|' <"$work/shown"), and the listing $(tr '\n' '|' <"$work/listed")"
fi

# A sheet that breaks off, inside a line or between two.
half=$(($(wc -c <"$sheet") / 2))
between=$(head -n 1000 "$sheet" | wc -c)
for cut in "$half" "$between"; do
    head -c "$cut" "$sheet" | desk >"$work/out" 2>&1
    status=$?
    if [ "$status" -eq 1 ] && grep -q '^line [0-9]*: the sheet has no end: was it cut?$' "$work/out"; then
        echo "ok desk, a sheet cut after $cut bytes"
    else
        echo "FAILED desk, a sheet cut after $cut bytes: status $status, $(tail -n 1 "$work/out")"
    fi
done
printf 'ok\nline 2: a sheet begins before the last one has ended\nok\nchecks 0, as expected 0, lines not understood 1\n' >"$work/wanted"
printf 'sheet\nsheet\nend\n' | answers "a sheet within a sheet" 1

# A carriage return within a line, as where lines end in another way: none of them is lost in a comment.
printf 'line 1: a carriage return stands within the line; none of it is read\nchecks 0, as expected 0, lines not understood 1\n' >"$work/wanted"
printf 'reset -> forgotten # note\rreset -> captured 05 03\n' | answers "a carriage return within a line" 1
# An input that cannot be read is no end of a session.
printf 'line 0: the input could not be read to its end\nchecks 0, as expected 0, lines not understood 1\n' >"$work/wanted"
answers "an input that cannot be read" 1 <docs
# One that breaks off inside a line: what is there of it is not done.
if command -v perl >/dev/null; then
    printf 'ok\nline 1: the input could not be read to its end\nchecks 0, as expected 0, lines not understood 1\n' >"$work/wanted"
    timeout 60 perl -MFcntl -e 'pipe(my $from, my $to) or die; fcntl($from, F_SETFL, O_NONBLOCK) or die;
        syswrite($to, "room 2\nwalk compatible -> number 0") or die; open(STDIN, "<&", $from) or die; exit(system("./run", "desk") >> 8)' >"$work/out" 2>"$work/errors"
    status=$?
    if [ "$status" -eq 1 ] && cmp -s "$work/out" "$work/wanted"; then
        echo "ok desk, an input that breaks off inside a line"
    else
        echo "FAILED desk, an input that breaks off inside a line: status $status, $(tr '\n' '|' <"$work/out")"
    fi
else
    missing "desk, an input that breaks off inside a line" perl
fi

# Every number of every expectation counts: one that is another is noticed.
cat >"$work/right" <<'LINES'
packet 44 00 00 01 01 00 07 0F 05 18 00 04 11 22 33 44 -> number 0, reply 0A 00 00 00 05 18 00 04 01 00 07 00, captured 05 03, ordinary 004 11 22 33 44
packet 04 00 00 01 01 00 08 0F 05 18 00 04 -> number 0, reply 4A 00 00 01 06 20 00 04 01 00 08 00 51 51 00 51
packet 5B 00 00 01 01 00 08 0F 06 20 00 10 01 02 03 04 -> number 0, reply 0A 00 00 00 06 20 00 04 01 00 08 00, trusted 010 01 02 03 04
packet 1B -> number 3
packet 44 00 00 01 01 00 07 00 07 28 00 04 11 22 33 44 -> number 0, reply 0A 00 00 00 07 28 00 04 01 00 07 00, captured 07 05
packet 44 00 00 01 01 00 07 0F 06 20 00 50 11 00 00 00 -> number 0, reply 0A 00 00 00 06 20 00 04 01 00 07 00, ordinary 050 40 51 51 51
merge 0F 0F 0F 0F F0 F0 F0 F0 0C 0C 0C 0C A5 A5 A5 A5 0F -> bytes AB AB AB AB
walk extended -> number 0, offsets 100 104 108
walk extended -> number 0, steps 3 100 4
walk compatible -> number 0
walk trusted -> number 12, place 724
dvsec ordinary 200 -> number 0, header 1EC0 3 2 C, body 20A 2
dvsec ordinary 300 -> number 0, header 1EC0 0 2 10, body 30A 6
dual ordinary 040 -> number 0, alternate 6 5
route 45 00 00 01 01 00 07 0F 05 18 00 04 11 22 33 44 -> number 0, port 1, leaves 44 00 00 01 01 00 07 0F 05 18 00 04 11 22 33 44
route 1B 00 00 01 01 00 08 0F 06 18 00 04 -> number 0, leaves 1B 00 00 01 01 00 08 0F 06 18 00 04, port 1
route 1B 00 00 01 01 00 08 0F 02 18 00 04 -> number 4
route 1B 00 00 01 01 00 08 0F 09 18 00 04 -> number 0
ask 44 01 00 07 05 03 0 004 F 11 22 33 44 -> number 0, writes 44 00 00 01 01 00 07 0F 05 18 00 04 11 22 33 44, reply 0A 00 00 00 05 18 00 04 01 00 07 00, captured 05 03, ordinary 004 11 22 33 44
ask 04 01 00 08 05 03 0 004 F -> number 0, reply 4A 00 00 01 06 20 00 04 01 00 08 00 51 51 00 51, writes 04 00 00 01 01 00 08 0F 05 18 00 04
ask 84 01 00 08 05 03 0 004 F -> number 1
completion 4A 00 00 01 05 18 00 04 01 00 08 00 09 0A 0B 0C -> number 0, completer 05 18, requester 01 00, tag 08, shown 09 0A 0B 0C
completion 0A 00 00 00 05 18 00 04 01 00 07 00 -> number 0, done, completer 05 18, tag 07, requester 01 00
completion 0A 00 00 00 05 18 00 04 01 00 07 00 -> number 0, requester 01 00, tag 07, completer 05 18, done
completion 0A 00 00 00 05 18 20 04 01 00 07 00 -> number 0, completer 05 18, requester 01 00, tag 07, unsupported
completion 0A 00 00 00 05 18 20 04 01 00 07 00 -> number 0, unsupported, completer 05 18, requester 01 00, tag 07
completion 0A 00 00 -> number 3
multicast ordinary 380 -> number 0, fields 5 3 1 D 123456000 B000000C0 4
multicast ordinary 200 -> number 8
multicast ordinary 3C0 -> number 13
keep ordinary 380 2 -> number 0, fields 5 3 1 D 123456000 B000000C0 4
keep ordinary FFC 2 -> number 8
judge 0 100025000 -> number 0, group 25, leaves-by 1 1F
judge 0 100025000 -> number 0, leaves-by 1F 1, group 25
judge 0 100026000 -> number 0, group 26, leaves-by
judge 0 100003000 -> number 0, group 3, dropped
judge 0 100003000 -> number 0, dropped, group 3
judge 0 FFFFFFFF -> number 0, no-hit
judge 20 0 -> number 1
plan -> number 0, offsets 100 108 110
plan -> number 0, steps 3 100 8
accept -> number 0
write ordinary -> number 0, headers 100 23 2 108 23 2 110 23 2
write trusted -> number 0, alike 3 100 8 23 2
LINES
# what stands before each of them
setting='open
captured 06 04
chain extended 3 100 4 0
ordinary 200 23 00 01 00 C0 1E C3 00 02 00 B0 B1 B2
ordinary 300 23 00 01 00 C0 1E 00 01 02 00
ordinary 006 00
ordinary 040 09 00 0C 01 C0 1E C0 00 02 00 40 05
ordinary-rules 050 00 00 00 00
ordinary-marks 050 FF FF FF FF
ports 02 03 0 05 08 1
ordinary 380 12 00 01 00 05 00 03 80 0D 60 45 23 01 00 00 00 C0 00 00 00 0B 00 00 00 04 00 00 00 00 00 00 00
ordinary 3C0 12 00 01 00 05 00 06 00
records 20
record 0 3F 3F 1 C 100000000 0 8
record 1 0 0 0 0 0 2000000000 0
record 1F 0 0 0 0 0 2000000000 0
structures
more 3 23 2 8
proposal 100 108 110'
# wrong FILE: for each number behind an arrow, its line with that number made another
wrong() {
    awk '{
        count = split($0, word, " ")
        for (i = 1; i <= count && word[i] != "->"; i++);
        for (i++; i <= count; i++) {
            if (word[i] !~ /^[0-9A-F]+,?$/) continue
            line = ""
            for (j = 1; j <= count; j++) line = line (j > 1 ? " " : "") (j == i ? other(word[j]) : word[j])
            print line
        }
    }
    function other(number,   comma, last) {
        comma = sub(/,$/, "", number) ? "," : ""
        last = substr(number, length(number))
        return substr(number, 1, length(number) - 1) (last == "1" ? "2" : "1") comma
    }' "$1"
}
# asked FILE: each line on a board of its own
asked() { while IFS= read -r asked_line; do printf '%s\n%s\n' "$setting" "$asked_line"; done <"$1"; }
asked "$work/right" | desk >"$work/out" 2>&1
status=$?
rights=$(wc -l <"$work/right")
if [ "$status" -eq 0 ] && [ "$(tail -n 1 "$work/out")" = "checks $rights, as expected $rights, lines not understood 0" ]; then
    echo "ok desk, one expectation of each kind"
else
    echo "FAILED desk, one expectation of each kind: $(grep -v '^ok\|^as' "$work/out" | head -n 3 | tr '\n' '|')"
fi
wrong "$work/right" >"$work/wrong"
wrongs=$(wc -l <"$work/wrong")
asked "$work/wrong" | desk >"$work/out" 2>&1
if [ "$wrongs" -gt 100 ] && [ "$(tail -n 1 "$work/out")" = "checks $wrongs, as expected 0, lines not understood 0" ]; then
    echo "ok desk, $wrongs expectations with one number wrong"
else
    echo "FAILED desk, $wrongs expectations with one number wrong: $(tail -n 1 "$work/out")"
fi
# And every clause: one that is left out is noticed.
sed -n 's/^\(.* -> .*\), [a-z-]*[0-9A-F ]*$/\1/p' "$work/right" >"$work/short"
shorts=$(wc -l <"$work/short")
asked "$work/short" | desk >"$work/out" 2>&1
if [ "$shorts" -ge 19 ] && [ "$(tail -n 1 "$work/out")" = "checks $shorts, as expected 0, lines not understood 0" ]; then
    echo "ok desk, $shorts expectations without their last clause"
else
    echo "FAILED desk, $shorts expectations without their last clause: $(tail -n 1 "$work/out")"
fi

# Each word of the desk stands in what `help` writes.
echo help | desk 2>&1 | tr -c 'A-Za-z-' '\n' | sort -u >"$work/help"
sed -n 's/^    ("\([A-Za-z-]*\)", Word::.*/\1/p' crates/desk/src/vocabulary.rt | grep '^[A-Za-z]' | sort -u >"$work/words"
absent=$(comm -13 "$work/help" "$work/words" | tr '\n' ' ')
if [ "$(wc -l <"$work/words")" -ge 50 ] && [ -z "$absent" ]; then echo "ok desk, help has each of its $(wc -l <"$work/words") words"; else echo "FAILED desk, help lacks: $absent"; fi

# Each line is answered before the next is sent.
mkfifo "$work/to" "$work/from"
timeout 60 ./run desk <"$work/to" >"$work/from" 2>"$work/errors" &
exec 3>"$work/to" 4<"$work/from"
echo 'reset -> forgotten' >&3
IFS= read -r -t 30 first <&4
echo 'function 7' >&3
IFS= read -r -t 30 second <&4
exec 3>&-
IFS= read -r -t 30 last <&4
exec 4<&-
wait
if [ "$first|$second|$last" = "as expected|ok|checks 1, as expected 1, lines not understood 0" ]; then
    echo "ok desk, an answer to each line at once"
else
    echo "FAILED desk, an answer to each line at once: $first|$second|$last"
fi

# Who types is asked for each line, and who sends lines is not: every answer above would have the mark in it.
if command -v script >/dev/null; then
    printf '%s\n' "The desk. 'help' lists what it understands; Ctrl-D ends." '> as expected' '> ok' '> ' \
        'checks 1, as expected 1, lines not understood 0' >"$work/wanted"
    : >"$work/typescript"
    { for _ in {1..300}; do if grep -q 'The desk' "$work/typescript"; then break; fi && sleep 0.1; done && printf 'reset -> forgotten\nopen\n\004' && sleep 2; } |
        timeout 60 script -qfec 'stty -echo && ./run desk' "$work/typescript" >/dev/null 2>&1
    printf '%s\n' "$(grep -v '^Script ' "$work/typescript" | tr -d '\r')" >"$work/out"
    if cmp -s "$work/out" "$work/wanted"; then echo "ok desk, at a terminal"; else echo "FAILED desk, at a terminal: $(tr '\n' '|' <"$work/out")"; fi
else
    missing "desk, at a terminal" script
fi

# No line end at the end: nothing is lost.
printf 'as expected\nchecks 1, as expected 1, lines not understood 0\n' >"$work/wanted"
printf 'reset -> forgotten' | answers "no line end at the end" 0

# Lines of any length: the longest that is read, one longer, a million characters, and many words; the next line is read again.
printf 'line 2: has 4,000 characters or more; none of it is read\nas expected\nline 4: has 4,000 characters or more; none of it is read\nline 5: has more than 128 words and numbers; none of it is read\nas expected\nline 7: has 4,000 characters or more; none of it is read\nchecks 2, as expected 2, lines not understood 4\n' >"$work/wanted"
{
    printf '%3999s\n' '' && printf '%4000s\n' ''
    echo 'reset -> forgotten'
    head -c 1000000 /dev/zero | tr '\0' 'a' && echo
    printf 'packet' && printf ' 00%.0s' {1..200} && echo
    echo 'reset -> forgotten'
    printf '%5000s' ''
} | answers "lines of any length" 1

# Binary noise: an answer for every line that says anything, and an end.
head -c 300000 crates/desk/out/desk | desk >"$work/out" 2>&1
status=$?
if [ "$status" -eq 1 ] && tail -n 1 "$work/out" | grep -q '^checks 0, as expected 0, lines not understood [1-9][0-9]*$' &&
    ! LC_ALL=C grep -q '[^ -~]' "$work/out"; then
    echo "ok desk, binary noise"
else
    echo "FAILED desk, binary noise: status $status, $(tail -n 1 "$work/out" | tr -c ' -~' '?')"
fi

# 100,000 lines, and somebody who stops reading.
yes 'packet 44 00 00 01 01 00 07 0F 05 18 00 04 11 22 33 44 -> number 0, reply 0A 00 00 00 05 18 00 04 01 00 07 00, captured 05 03
reset -> forgotten' | head -n 100000 >"$work/in"
{ yes 'as expected' | head -n 100000 && echo 'checks 100000, as expected 100000, lines not understood 0'; } >"$work/wanted"
answers "100,000 lines" 0 <"$work/in"
first=$(yes 'reset -> forgotten' | timeout 60 ./run desk 2>"$work/errors" | head -n 1)
if [ "$first" = 'as expected' ] && [ ! -s "$work/errors" ]; then echo "ok desk, a pipe that nobody reads on"; else echo "FAILED desk, a pipe that nobody reads on: $first, $(head -n 1 "$work/errors")"; fi
if [ -w /dev/full ]; then
    if echo help | desk >/dev/full 2>"$work/errors"; then echo "FAILED desk, output that is not taken: status 0"; else echo "ok desk, output that is not taken"; fi
fi
