# The blocks of docs/LEARN.md, docs/GROUPS.md, docs/RETRY.md, docs/ANSWERS.md and docs/SHARED.md are what the desk answers. A fenced block that has a line
# beginning with '> ' is a transcript: what stands behind '> ' is typed, the other lines are the answers. All transcripts of a page, in order, are one session. The
# variable DESK may name another command for the desk.
work=$(mktemp -d) || exit 2
trap 'rm -rf "$work"' EXIT

desk() { if [ -n "${DESK:-}" ]; then $DESK; else ./run desk; fi; }

# blocks PAGE: every line of the page's transcripts, with its number in the page before it
blocks() {
    awk '/^```/ { if (fenced && typed) printf "%s", text; fenced = !fenced; typed = 0; text = ""; next }
        fenced { text = text FNR ":" $0 "\n"; if (/^> /) typed = 1 }
        END { if (fenced) print FNR ":a block has no end" }' "$1"
}
typed() { blocks "$1" | sed -n 's/^[0-9]*:> //p'; }
checks() { typed "$1" | sed 's/#.*//' | grep -c -e ' -> '; }

# session: what the desk answers to typed lines, each of which it writes out
session() { { echo echo && cat; } | desk 2>"$work/log"; }

# difference PAGE UNKNOWN: the page's session. So many lines are not to be understood, and every check is to be as expected. Tells the first
# line where the page and the desk differ, or nothing
difference() {
    blocks "$1" >"$work/blocks"
    { cut -d : -f 2- "$work/blocks" && echo "checks $(checks "$1"), as expected $(checks "$1"), lines not understood $2"; } >"$work/page"
    typed "$1" | session >"$work/answers"
    [ -s "$work/answers" ] || { echo "the desk wrote nothing: $(tail -n 1 "$work/log")" && return; }
    ! cmp -s "$work/page" "$work/answers" || return
    awk 'FILENAME == ARGV[1] { place[FNR] = "line " $0; sub(/:.*/, "", place[FNR]); next }
        FILENAME == ARGV[2] { page[FNR] = $0; pages = FNR; next }
        { desk[FNR] = $0; desks = FNR }
        END {
            for (n = 1; n <= pages && n <= desks && page[n] == desk[n]; n++);
            printf "%s: the page has \"%s\", the desk \"%s\"\n", (n in place) ? place[n] : "the end", page[n], desk[n]
        }' "$work/blocks" "$work/page" "$work/answers"
}

# page NAME UNKNOWN LINES CHECKS: the page is what the desk answers, and has at least so many typed lines and checks
page() {
    local page=docs/$1.md lines told
    lines=$(($(typed "$page" | wc -l)))
    told=$(difference "$page" "$2")
    if [ -n "$told" ]; then
        echo "FAILED the blocks of $page are not what the desk answers: $told"
    elif [ "$lines" -lt "$3" ] || [ "$(checks "$page")" -lt "$4" ]; then
        echo "FAILED the blocks of $page have $lines typed lines and $(checks "$page") checks, and should have $3 and $4"
    else
        echo "ok the blocks of $page are what the desk answers"
    fi
}
page LEARN 1 180 67 # LEARN shows a mistake, and what the desk says of it
page GROUPS 0 56 23
page ANSWERS 0 332 173
page SHARED 0 107 39
page RETRY 0 208 112

# noticed WORDS TEXT: of the page on standard input, in which every line is to be understood, this is told
noticed() {
    local told
    cat >"$work/other.md"
    told=$(difference "$work/other.md" 0)
    case $told in
    *"$2"*) echo "ok $1 in a page is noticed" ;;
    *) echo "FAILED $1 in a page is told as '$told'" ;;
    esac
}
# as_answered LINE: a page with this line typed, and what the desk answers to it
as_answered() { echo '```' && echo "$1" | session | sed '$d' && echo '```'; }
sed 's/^\(  reply: .* 75\) 00$/\1 01/' docs/ANSWERS.md | noticed 'an altered answer' ' 75 01", the desk "  reply: 0A 00 00 00 05 18 20 04 01 00 75 00"'
sed 's/^\(  group 21, leaves by\) no port$/\1 ports: 1/' docs/GROUPS.md | noticed 'an altered verdict' 'ports: 1", the desk "  group 21, leaves by no port"'
sed '/-> forgotten$/{n;d;}' docs/SHARED.md | noticed 'a missing answer' ', the desk "as expected"'
sed 's/trusted 1A8 72 72 72 7E$/trusted 1A8 72 72 72 7F/' docs/ANSWERS.md | noticed 'a wrong expectation' 'the page has "as expected", the desk "line '
awk '{ line[NR] = $0 } /^```/ { last = NR } END { for (n = 1; n <= NR; n++) if (n != last) print line[n] }' docs/SHARED.md | noticed 'a block without an end' 'the page has "a block has no end"'
as_answered 'reset -> captured 05 03' | noticed 'a failed check, as the desk tells it,' 'the end: the page has "checks 1, as expected 1, '
as_answered 'walrus extended' | noticed 'a mistake, as the desk tells it,' 'the end: the page has "checks 0, as expected 0, lines not understood 0"'

# What SHARED says of pairs of runs. A board begins with its name in a comment of its own; questions are what comes, all else is how it begins.
# What a question expects is what is answered: that is tried above.
shared=docs/SHARED.md
name=SHARED
of_board() { typed "$shared" | awk -v name="$1" '/^# [A-Z][a-z]*$/ { on = $2 == name; next } on'; }
questions() { of_board "$1" | grep -E '^(packet|reset)( |$)'; }
beginning() { of_board "$1" | grep -v -E '^(packet|reset)( |$)'; }
asked() { questions "$1" | sed 's/ -> .*//'; }
# first_trusted X: the first byte of a packet that is trusted on this board; under edition 2 none with bit 7 is
first_trusted() { if beginning "$1" | grep -q -x 'edition 2'; then echo '[15]B'; else echo '[159D]B'; fi; }
trusted() { questions "$1" | grep -i -E "^packet $(first_trusted "$1") "; }
ordinary() { questions "$1" | grep -v -i -E "^packet $(first_trusted "$1") "; }
same() { [ -n "$1" ] && [ "$1" = "$2" ]; }
# differ_only X Y WORDS: the boards begin with these words' lines different, every word's, and with the same lines else
differ_only() {
    local word
    for word in $3; do
        [ "$(beginning "$1" | grep -E "^$word( |\$)")" != "$(beginning "$2" | grep -E "^$word( |\$)")" ] || return
    done
    same "$(beginning "$1" | grep -v -E "^(${3// /|})( |\$)")" "$(beginning "$2" | grep -v -E "^(${3// /|})( |\$)")"
}
agree() { # X Y WORDS
    differ_only "$1" "$2" "$3" && same "$(ordinary "$1")" "$(ordinary "$2")" && [ "$(trusted "$1")" != "$(trusted "$2")" ]
}
disagree() { # X Y WORDS
    differ_only "$1" "$2" "$3" && same "$(asked "$1")" "$(asked "$2")" && [ "$(questions "$1")" != "$(questions "$2")" ]
}
held() { # WORDS COMMAND..
    if "${@:2}"; then echo "ok $name: $1"; else echo "FAILED $name: not so: $1"; fi
}
every_question_is_a_check() { [ "$(typed "$shared" | grep -c -E '^(packet|reset)( |$)')" -eq "$(checks "$shared")" ]; }
held 'every packet and every reset is a check' every_question_is_a_check
harbours='B trusted trusted-rules trusted-marks'
held 'Harbour and Ridge differ in B and in trusted things, and agree on every ordinary packet' agree Harbour Ridge "$harbours"
held 'Mill and Dune differ in the register, ask the same and disagree' disagree Mill Dune trusted
held 'Quay and Moor differ in the capture, ask the same and disagree' disagree Quay Moor 'captured forgotten'
with_bit_7() { ordinary "$1" | grep -q '^packet DB ' && ordinary "$2" | grep -q '^packet DB '; }
held 'Fell and Glen have a packet among the ordinary ones that would be trusted but for bit 7' with_bit_7 Fell Glen
held 'Fell and Glen differ in B and in trusted things, and agree on every ordinary packet' agree Fell Glen "$harbours"
held 'Weir and Crag differ in the edition, ask the same and disagree' disagree Weir Crag edition

# and the same of copies in which it is not so
refused() { # WORDS COMMAND..: with the page on standard input
    cat >"$work/shared.md"
    shared=$work/shared.md
    if "${@:2}"; then echo "FAILED $name: $1 would go unnoticed"; else echo "ok $name: $1 would be noticed"; fi
}
sed 's/ -> forgotten$//' docs/SHARED.md | refused 'a reset without an expectation' every_question_is_a_check
awk '/^> # Ridge/ { on = 1 } on { sub(/11 22 33 44 ->/, "11 22 33 45 ->") } { print }' docs/SHARED.md | refused 'another ordinary packet' agree Harbour Ridge "$harbours"
awk '/^> # Ridge/ { on = 1 } on { sub(/ordinary 104 AA/, "ordinary 104 AB") } { print }' docs/SHARED.md | refused 'another ordinary byte at the beginning' agree Harbour Ridge "$harbours"
sed 's/trusted 00C FF FF FF FF/trusted 00C 00 00 00 00/' docs/SHARED.md | refused 'the same register twice' disagree Mill Dune trusted
awk '/^> # Moor/ { on = 1 } on { sub(/18 00 04 ->/, "18 00 08 ->") } { print }' docs/SHARED.md | refused 'another question' disagree Quay Moor 'captured forgotten'
awk '/^> # Glen/ { on = 1 } on && /^> packet DB/ { getline; next } { print }' docs/SHARED.md | refused 'a packet with bit 7 in one run alone' agree Fell Glen "$harbours"
awk '/^> # Glen/ { on = 1 } on { sub(/^> edition 2/, "> edition 1") } { print }' docs/SHARED.md | refused 'another edition' agree Fell Glen "$harbours"
sed 's/^> edition 2/> edition 1/' docs/SHARED.md | refused 'edition 1 where such a packet is trusted' with_bit_7 Fell Glen
awk '/^> # Weir/ { on = 1 } on { sub(/^> edition 2/, "> edition 1") } { print }' docs/SHARED.md | refused 'the same edition twice' disagree Weir Crag edition

# What LEARN says of pairs of runs of two functions, in the same way: whom a packet is for is in byte 9, and no Type 1 request is for either.
shared=docs/LEARN.md
name=LEARN
primary='[08]'
alternate='[19]'
for_function() { questions "$1" | grep -E "^packet [0-9A-F][^5] ([0-9A-F]{2} ){8}[0-9A-F]$2 "; }
for_others() { questions "$1" | grep -v -E "^packet [0-9A-F][^5] ([0-9A-F]{2} ){8}[0-9A-F]$2 "; }
for_neither() { for_others "$1" "$primary" | grep -v -E "^packet [0-9A-F][^5] ([0-9A-F]{2} ){8}[0-9A-F]$alternate "; }
begin_alike() { same "$(beginning "$1")" "$(beginning "$2")"; }
# differ_for X Y FUNCTION: the runs begin alike, and packets for this function differ
differ_for() { begin_alike "$1" "$2" && [ "$(for_function "$1" "$3")" != "$(for_function "$2" "$3")" ]; }
apart() { differ_for "$1" "$2" "$3" && same "$(for_others "$1" "$3")" "$(for_others "$2" "$3")"; }
seen_for_neither() { # X Y
    differ_for "$1" "$2" "$primary" && same "$(for_function "$1" "$alternate")" "$(for_function "$2" "$alternate")" &&
        same "$(for_neither "$1" | sed 's/ -> .*//')" "$(for_neither "$2" | sed 's/ -> .*//')" && [ "$(for_neither "$1")" != "$(for_neither "$2")" ]
}
held 'Kite and Rook differ in packets for the alternate, and agree in all others' apart Kite Rook "$alternate"
held 'Teal and Ibis differ in packets for the primary, agree in those for the alternate, and disagree in one for neither' seen_for_neither Teal Ibis
awk '/^> # Rook/ { on = 1 } on { sub(/05 18 01 04 ->/, "05 18 01 08 ->") } { print }' docs/LEARN.md | refused 'another packet for the primary' apart Kite Rook "$alternate"
awk '/^> # Rook/ { on = 1 } on { sub(/05 1A 00 04 -> number 0, reply 0A 00 00 00 05 18/, "05 1A 00 04 -> number 0, reply 0A 00 00 00 00 00") } { print }' docs/LEARN.md |
    refused 'another answer to a request for neither' apart Kite Rook "$alternate"
awk '/^> # Rook/ { on = 1 } on { sub(/^> reset.*/, "> packet -> number 3") } { print }' docs/LEARN.md | refused 'a reset in one run alone' apart Kite Rook "$alternate"
awk '/^> # Ibis/ { on = 1 } on { sub(/reply 0A 00 00 00 00 00/, "reply 0A 00 00 00 05 18") } { print }' docs/LEARN.md | refused 'the same answers to a request for neither' seen_for_neither Teal Ibis

# What RETRY says of packets that come twice, and of writes that are swapped, in the same way. A packet's byte 7 has the enables, and byte 6 the tag.
shared=docs/RETRY.md
name=RETRY
# first_part: what is typed in the part about what may be repeated
first_part() { awk '/^## / { on = /^## What you may repeat/ } on' "$shared" >"$work/part.md" && typed "$work/part.md"; }
# doubled: each write of host 01 00 there is typed twice or more, and always with the same expectation
doubled() {
    local writes
    writes=$(first_part | grep -E '^(packet|route) (44|45|5B|DB) 00 [0-9A-F]{2} 01 01 00 ')
    [ "$(printf '%s\n' "$writes" | wc -l)" -ge 20 ] && [ -z "$(printf '%s\n' "$writes" | sort | uniq -u)" ] &&
        [ "$(printf '%s\n' "$writes" | sort -u | wc -l)" -eq "$(printf '%s\n' "$writes" | sed 's/ -> .*//' | sort -u | wc -l)" ]
}
nth() { questions "$1" | sed -n "$2p"; }
last() { questions "$1" | tail -n 1; }
# replied X N: the board's N-th question with its reply, and without what it leaves
replied() { nth "$1" "$2" | sed -E 's/, (captured|ordinary|trusted) .*//'; }
enables() { nth "$1" "$2" | cut -d ' ' -f 9; }
# but_enables X N: the board's N-th packet without its tag and its enables
but_enables() { nth "$1" "$2" | sed 's/ -> .*//' | cut -d ' ' -f 1-7,10-; }
# crossed X Y: they begin alike, and get the same two packets in the other order
crossed() {
    begin_alike "$1" "$2" && [ "$(nth "$1" 1 | sed 's/ -> .*//')" != "$(nth "$1" 2 | sed 's/ -> .*//')" ] &&
        same "$(replied "$1" 1)" "$(replied "$2" 2)" && same "$(replied "$1" 2)" "$(replied "$2" 1)"
}
# swapped X Y Z: two writes with other enables, in both orders and as one; the read at the end is the same
swapped() {
    crossed "$1" "$2" && begin_alike "$1" "$3" && same "$(but_enables "$1" 1)" "$(but_enables "$1" 2)" && same "$(but_enables "$1" 1)" "$(but_enables "$3" 1)" &&
        [ "$((0x$(enables "$1" 1) | 0x$(enables "$1" 2)))" -eq "$((0x$(enables "$3" 1)))" ] && [ "$(questions "$3" | wc -l)" -eq 2 ] &&
        same "$(last "$1")" "$(last "$2")" && same "$(last "$1")" "$(last "$3")"
}
# last_stays X Y: the same two packets in both orders, and the read at the end asks the same and shows something else
last_stays() { crossed "$1" "$2" && same "$(last "$1" | sed 's/ -> .*//')" "$(last "$2" | sed 's/ -> .*//')" && [ "$(last "$1")" != "$(last "$2")" ]; }
# seen_between X Y: the first and the third packet are swapped, the read between asks the same and shows something else, and the end is the same
seen_between() {
    begin_alike "$1" "$2" && same "$(replied "$1" 1)" "$(replied "$2" 3)" && same "$(replied "$1" 3)" "$(replied "$2" 1)" &&
        same "$(nth "$1" 2 | sed 's/ -> .*//')" "$(nth "$2" 2 | sed 's/ -> .*//')" && [ "$(nth "$1" 2)" != "$(nth "$2" 2)" ] &&
        same "$(nth "$1" 3 | sed 's/.*, ordinary/ordinary/')" "$(nth "$2" 3 | sed 's/.*, ordinary/ordinary/')"
}
# comes_back X: the first packet comes a third time, with the same reply, and the word is what it was after it
comes_back() { same "$(nth "$1" 1)" "$(nth "$1" 3)" && [ "$(nth "$1" 1)" != "$(nth "$1" 2)" ]; }
held 'each write that may be repeated stands twice or more, with the same reply and the same bytes after it' doubled
held 'Alder and Birch swap two ordinary writes, Cedar has one, and all three show the same' swapped Alder Birch Cedar
held 'Elder and Hazel swap two trusted writes, Larch has one, and all three show the same' swapped Elder Hazel Larch
held 'Maple and Pine swap two writes at A, Rowan has one, and all three show the same' swapped Maple Pine Rowan
held 'on Sorrel a write that is repeated after another puts its data back' comes_back Sorrel
held 'Spruce and Willow swap two writes of other data, and show something else' last_stays Spruce Willow
held 'Thorn and Ivy swap two writes with a read between, which shows something else' seen_between Thorn Ivy
awk '!(/^> packet 5B 00 00 01 01 00 0A / && seen++)' docs/RETRY.md | refused 'a write that stands once' doubled
awk '/^> # Birch/ { on = 1 } on { sub(/01 00 32 00, captured/, "01 00 31 00, captured") } { print }' docs/RETRY.md | refused 'another reply in the other order' swapped Alder Birch Cedar
awk '/^> # Cedar/ { on = 1 } on { sub(/01 00 33 07/, "01 00 33 03") } { print }' docs/RETRY.md | refused 'one write with fewer enables' swapped Alder Birch Cedar
awk '/^> # Hazel/ { on = 1 } on { sub(/01 00 38 00 21 30/, "01 00 38 00 21 31") } { print }' docs/RETRY.md | refused 'another word at the end' swapped Elder Hazel Larch
awk '/^> # Pine/ { on = 1 } on { sub(/FF FF FF FF ->/, "FE FF FF FF ->") } { print }' docs/RETRY.md | refused 'other data in the other order' swapped Maple Pine Rowan
awk '/^> # Sorrel/ { on = 1 } on && /^> packet 5B 00 00 01 01 00 41 / && n++ { sub(/02 00 00 00 ->/, "06 00 00 00 ->") } { print }' docs/RETRY.md | refused 'another packet in the place of a repeat' comes_back Sorrel
awk '/^> # Willow/ { on = 1 } on { sub(/00 43 00 02/, "00 43 00 06") } { print }' docs/RETRY.md | refused 'the same word at the end of both' last_stays Spruce Willow
awk '/^> # Ivy/ { on = 1 } on { sub(/4B 00 51 51 A3 A4/, "4B 00 A1 A2 51 51") } { print }' docs/RETRY.md | refused 'a read between that shows the same' seen_between Thorn Ivy
exit 0
