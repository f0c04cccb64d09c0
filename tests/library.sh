# The library as C and C++ hosts use it: ./library builds and installs it, programs link it, those of docs/LIBRARY.md as they stand there.
# Each program is compiled by cc and by the kit's clang. Where a tool is missing, what needs it is skipped, or failed where CI is set.
. tests/common/host_tools.bash
page=docs/LIBRARY.md
least=242
here=x86_64-unknown-linux-gnu

# needs ARCHIVE: what the page says the archive needs of the C library
needs() {
    local wanted
    wanted=$(nm -u "$1" 2>"$work/log" | awk '$1 == "U" { print $2 }' | sort -u | tr '\n' ' ')
    if [ "$wanted" = 'memcpy memset ' ]; then
        echo "ok $1 needs memcpy and memset and nothing else"
    else
        echo "FAILED $1 needs memcpy and memset and nothing else: $wanted $(head -n 1 "$work/log")"
    fi
    return 0
}

# first_day NAME COMMAND..: the lines of the program of hosts/c, each under a name
first_day() {
    local name=$1 line groups=0
    shift
    timeout 120 "$@" >"$work/out" 2>"$work/log" </dev/null
    local status=$?
    while IFS= read -r line; do
        case $line in
        "ok "*) echo "ok $name, ${line#ok }" && groups=$((groups + 1)) ;;
        "FAILED "*) echo "FAILED $name, ${line#FAILED }" ;;
        *) echo "FAILED $name: it printed $line" ;;
        esac
    done <"$work/out"
    if [ "$status" -eq 0 ] && [ "$groups" -ge "$least" ]; then
        echo "ok $name, all $groups groups"
    else
        echo "FAILED $name: it ended with status $status after $groups good groups $(tail -n 1 "$work/log")"
    fi
}

# objects FOLDER TARGET: the program of hosts/c, compiled by the kit's clang, a file each
objects() {
    local file
    mkdir -p "$1"
    for file in hosts/c/*.c; do
        kit_clang c "$2" "${c[@]}" -O1 -fPIE -I "$built" -c "$file" -o "$1/$(basename "$file" .c).o" || return
    done
}

in_c() {
    needs "$archive"
    try 'first_day compiles with cc' cc "${c[@]}" -O1 -I "$built" hosts/c/*.c "$archive" -o "$work/first_day" &&
        first_day "first_day, by cc" "$work/first_day"
    try "first_day compiles with the kit's clang" objects "$work/clang" "$here" &&
        try "first_day links with what the kit's clang made" cc "$work"/clang/*.o "$archive" -o "$work/first_day" &&
        first_day "first_day, by the kit's clang" "$work/first_day"
}

# A program that uses nothing of the header gets no warning either, also where a compiler warns of every constant that is not used.
nothing_used() {
    local words standard
    printf '#include "thawribbon.h"\nint main(void) { return 0; }\n' >"$work/nothing.c"
    for standard in c99 c11; do
        words=("${warnings[@]}" -std=$standard -Wstrict-prototypes -Wunused-const-variable -I "$built" -c "$work/nothing.c" -o "$work/nothing.o")
        try "a program that uses nothing of thawribbon.h compiles with cc, as $standard" cc "${words[@]}"
        try "a program that uses nothing of thawribbon.h compiles with the kit's clang, as $standard" kit_clang c "$here" "${words[@]}"
    done
}

# cpp_runs NAME FILE TEXT: a C++ program compiles with both compilers, and prints what the file TEXT holds
cpp_runs() {
    try "$1 compiles with c++" c++ "${cpp[@]}" -I "$built" "$2" "$archive" -o "$work/cpp" &&
        prints "$1 runs, by c++" "$3" "$work/cpp" &&
        try "$1 compiles with the kit's clang" kit_clang c++ "$here" "${cpp[@]}" -fPIE -I "$built" -c "$2" -o "$work/cpp.o" &&
        try "$1 links with what the kit's clang made" c++ "$work/cpp.o" "$archive" -o "$work/cpp" &&
        prints "$1 runs, by the kit's clang" "$3" "$work/cpp"
}

in_cpp() {
    local n ran=0
    if ! command -v c++ >"$work/log"; then
        missing 'thawribbon.h is C++17' c++
        return
    fi
    echo "ok with thawribbon $(cat VERSION)" >"$work/expected"
    cpp_runs board.cpp hosts/c/board.cpp "$work/expected"
    cpp_runs pair.cpp hosts/c/pair.cpp "$work/expected"
    cpp_runs switch.cpp hosts/c/switch.cpp "$work/expected"
    cpp_runs ask.cpp hosts/c/ask.cpp "$work/expected"
    cpp_runs offload.cpp hosts/c/offload.cpp "$work/expected"
    cpp_runs workshop.cpp hosts/c/workshop.cpp "$work/expected"
    for ((n = 1; n <= $(blocks $page cpp); n++)); do
        fenced $page cpp $n >"$work/page.cpp"
        printed $page cpp $n >"$work/page.text"
        cpp_runs "C++ program $n of $page" "$work/page.cpp" "$work/page.text" && ran=$((ran + 1))
    done
    all_run $page cpp $ran
}

# warned NAME COMMAND..: each dropped answer of hosts/c/wrong/dropped.c is warned of; it drops one of each function that says so in the header
warned() {
    local name=$1 wanted found said
    shift
    wanted=$(grep -c '/\* dropped \*/' hosts/c/wrong/dropped.c)
    said=$(grep -c '^THAWRIBBON_MUST_USE ' "$built/thawribbon.h")
    found=$("$@" -std=c99 -Wall -I "$built" -c hosts/c/wrong/dropped.c -o "$work/dropped.o" 2>&1 | grep -c 'warning: .*warn_unused_result')
    if [ "$wanted" -gt 10 ] && [ "$found" -eq "$wanted" ] && [ "$said" -eq "$wanted" ]; then
        echo "ok $name warns of all $wanted answers that are dropped"
    else
        echo "FAILED $name warns of $found of $wanted answers that are dropped, and thawribbon.h has $said"
    fi
}

mistakes_are_seen() {
    warned cc cc
    warned "the kit's clang" kit_clang c "$here"
    ends 'cc sees a board over a buffer of 256 bytes' 1 'incompatible' \
        cc "${c[@]}" -I "$built" -c hosts/c/wrong/short_space.c -o "$work/short_space.o"
    ends "the kit's clang sees a board over a buffer of 256 bytes" 1 'incompatible' \
        kit_clang c "$here" "${c[@]}" -I "$built" -c hosts/c/wrong/short_space.c -o "$work/short_space.o"
    ends 'cc sees a new board over a buffer of 256 bytes' 1 'incompatible' \
        cc "${c[@]}" -I "$built" -c hosts/c/wrong/short_new_space.c -o "$work/short_new_space.o"
    ends "the kit's clang sees a new board over a buffer of 256 bytes" 1 'incompatible' \
        kit_clang c "$here" "${c[@]}" -I "$built" -c hosts/c/wrong/short_new_space.c -o "$work/short_new_space.o"
    ends 'cc sees a description without an edition, where members have no names' 1 'missing-field-initializers' \
        cc "${c[@]}" -I "$built" -c hosts/c/wrong/no_edition.c -o "$work/no_edition.o"
    ends "the kit's clang sees a description without an edition, where members have no names" 1 'missing-field-initializers' \
        kit_clang c "$here" "${c[@]}" -I "$built" -c hosts/c/wrong/no_edition.c -o "$work/no_edition.o"
    ends 'cc sees a board of two functions without an edition, where members have no names' 1 'excess elements in scalar initializer' \
        cc "${c[@]}" -I "$built" -c hosts/c/wrong/no_pair_edition.c -o "$work/no_pair_edition.o"
    ends "the kit's clang sees a board of two functions without an edition, where members have no names" 1 'excess elements in scalar initializer' \
        kit_clang c "$here" "${c[@]}" -I "$built" -c hosts/c/wrong/no_pair_edition.c -o "$work/no_pair_edition.o"
    ends 'cc sees a board of two functions served as one of one' 1 'incompatible' \
        cc "${c[@]}" -I "$built" -c hosts/c/wrong/pair_as_board.c -o "$work/pair_as_board.o"
    ends "the kit's clang sees a board of two functions served as one of one" 1 'incompatible' \
        kit_clang c "$here" "${c[@]}" -I "$built" -c hosts/c/wrong/pair_as_board.c -o "$work/pair_as_board.o"
    ends 'cc sees what a record names taken for what became of a packet' 1 'enum-compare' \
        cc "${c[@]}" -I "$built" -c hosts/c/wrong/other_named.c -o "$work/other_named.o"
    ends "the kit's clang sees what a record names taken for what became of a packet" 1 'enum-compare' \
        kit_clang c "$here" "${c[@]}" -I "$built" -c hosts/c/wrong/other_named.c -o "$work/other_named.o"
    ends "cc sees what is judged taken for a router's verdict" 1 'enum-compare' \
        cc "${c[@]}" -I "$built" -c hosts/c/wrong/other_verdict.c -o "$work/other_verdict.o"
    ends "the kit's clang sees what is judged taken for a router's verdict" 1 'enum-compare' \
        kit_clang c "$here" "${c[@]}" -I "$built" -c hosts/c/wrong/other_verdict.c -o "$work/other_verdict.o"
}

# The C programs of the page, and what it says that they print.
page_in_c() {
    local n ran=0
    for ((n = 1; n <= $(blocks $page c); n++)); do
        fenced $page c $n >"$work/page.c"
        printed $page c $n >"$work/page.text"
        try "C program $n of $page compiles" cc "${c[@]}" -I "$built" "$work/page.c" "$archive" -o "$work/page" &&
            prints "C program $n of $page prints what it says" "$work/page.text" "$work/page" && ran=$((ran + 1))
    done
    all_run $page c $ran
}

# page_without_board N NAMES: the page's N-th C program has no board: of the archive, only these functions are linked
page_without_board() {
    local linked
    fenced $page c "$1" >"$work/page.c"
    try "C program $1 of $page compiles by itself" cc "${c[@]}" -I "$built" "$work/page.c" "$archive" -o "$work/page" || return
    linked=$(nm "$work/page" | awk '$2 == "T" && $3 ~ /^thawribbon_/ { print $3 }' | sort | tr '\n' ' ')
    if [ "$linked" = "$2 " ]; then
        echo "ok C program $1 of $page is linked without a board"
    else
        echo "FAILED C program $1 of $page is linked with $linked"
    fi
}

# The page has no block that no test knows: sh is read by people, text is what programs print, toml is used by tests/rust.sh.
page_languages() {
    local found
    found=$(grep -oE '^```.+' $page | sort -u | tr -d '`' | tr '\n' ' ')
    if [ "$found" = 'c cpp rust sh text toml ' ]; then echo "ok the blocks of $page are of known languages"; else echo "FAILED the blocks of $page are of $found"; fi
}

# other_page_c NAME N SCRIPT TEXT: the page's N-th C program, changed by sed, ends with 1 and this text
other_page_c() {
    fenced $page c "$2" | sed "$3" >"$work/page.c"
    if fenced $page c "$2" | cmp -s - "$work/page.c"; then echo "FAILED $1: nothing was changed"; fi
    try "C program $2 of $page compiles, changed" cc "${c[@]}" -I "$built" "$work/page.c" "$archive" -o "$work/page" &&
        ends "$1" 1 "$4" "$work/page"
}

# What is wrong, the programs of the page notice.
page_notices() {
    other_page_c "C program 1 of $page notices that it was not done" 1 \
        's/thawribbon_board_serve(&board, type0_write, sizeof type0_write, &answer) != THAWRIBBON_DONE/sizeof type0_write == 0/' \
        'not done: Unsupported Request: the access was not done'
    other_page_c "C program 1 of $page notices that it has not landed" 1 's/\[0x010\] = 0xFF/[0x010] = 0xF0/' 'done, and not landed'
    other_page_c "C program 1 of $page notices that the board has no edition" 1 's/, \.edition = THAWRIBBON_EDITION_1//' \
        'not done: a space, rules or marks of 4,096 bytes are not lent'
    other_page_c "C program 1 of $page notices an edition that is none" 1 's/THAWRIBBON_EDITION_1/257/' \
        'not done: a space, rules or marks of 4,096 bytes are not lent'
    other_page_c "C program 2 of $page stops at a board that is badly described" 2 's/\.function = 0/.function = 8/' 'dropped a packet: a space, rules or marks'
    if [ "$(wc -l <"$work/log")" -ne 1 ]; then echo "FAILED C program 2 of $page goes on with a board that is badly described"; fi
    other_page_c "C program 2 of $page tells where a list is broken" 2 's/0x23, 0x00, 0x01}/0x23, 0x00, 0x81, 0x00}/' \
        "$(sed -n 's/^    \(no list: .*\)$/\1/p' $page)"
    other_page_c "C program 3 of $page notices that a port does not support TCS routing" 3 's/\.tcs = 1/.tcs = 0/' \
        'trusted and its port does not support TCS routing'
    other_page_c "C program 3 of $page notices that no port has the bus" 3 's/0x06, 0x18/0x07, 0x18/' \
        'does not leave: Unsupported Request: no port'
    other_page_c "C program 4 of $page notices that it was not done" 4 's/THAWRIBBON_TYPE0_WRITE/THAWRIBBON_TYPE0_READ/' \
        'not done: Unsupported Request: the access was not done'
    other_page_c "C program 4 of $page notices that it has not landed" 4 's/\[0x010\] = 0xFF/[0x010] = 0xF0/' 'done, and not landed'
    other_page_c "C program 4 of $page notices that an offset is not a multiple of 4" 4 's/0, 0x010/0, 0x012/' \
        'an offset over FFCh or not a multiple of 4'
    other_page_c "C program 5 of $page notices a completion of another request" 5 's/\.tag = 8/.tag = 9/' \
        "not done: the completion is another request's"
    other_page_c "C program 5 of $page notices that there is nothing to send" 5 's/\.enables = 0x0F/.enables = 0x10/' 'nothing to send: '
    other_page_c "C program 6 of $page notices a bit in both rules and marks" 6 's/trusted, rules;/trusted, rules = {{[0x007] = 0x80}};/' \
        'not done: a space, rules or marks of 4,096 bytes are not lent, a bit is in both the rules and the marks of a space'
    other_page_c "C program 6 of $page notices that a space has no marks" 6 's/\.marks = &thawribbon_no_marks/.marks = NULL/' \
        'not done: a space, rules or marks of 4,096 bytes are not lent'
    other_page_c "C program 7 of $page notices that a port has no Multicast capability" 7 's/{0x12, 0x00/{0x24, 0x00/' \
        'port 0 cannot be read: this is not the structure asked for'
    other_page_c "C program 7 of $page notices that the second port has none at its place" 7 's/\[port\]\.at + 0x100, capability/[port].at + 0x100 - port, capability/' \
        'port 1 cannot be read: this is not the structure asked for'
    other_page_c "C program 7 of $page notices that there are more groups than there may be" 7 's/0x3F, 0x00, 0x03/0x02, 0x00, 0x03/' \
        'port 0 cannot be read: the Multicast capability has a Num Group over its Max Group'
    other_page_c "C program 7 of $page notices that an address hits nothing" 7 's/0x800002FFF/0x800004000/' '800004000: no hit: the address is in no group of the port that the packet enters by, or that port is not enabled'
    other_page_c "C program 7 of $page notices that a port is not enabled" 7 's/0x03, 0x80/0x03, 0x00/' '800001000: no hit: the address is in no group of the port that the packet enters by, or that port is not enabled'
    other_page_c "C program 7 of $page notices that nobody receives a group" 7 's/{0x00, 0x06, 0x04}/{0x06, 0x04, 0x04}/' \
        '800001000: the packet leaves by no port'
    other_page_c "C program 7 of $page notices that a group is blocked" 7 's/spaces\[port\]\.at\[0x110\]/spaces[port].at[0x118] = 0x07, &/' \
        '800001000: the packet is dropped where it enters'
    other_page_c "C program 7 of $page notices that there is no such port" 7 's/&offload, 0, address/\&offload, 3, address/' \
        'a packet enters by no port of the list'
    other_page_c "C program 8 of $page notices that a board has no edition" 8 's/, \.edition = THAWRIBBON_EDITION_2//' \
        "05 leaves as 04, $(sed -n 's/.*it would end with `\(edition 0: [^`]*\)`.*/\1/p' $page)"
    other_page_c "C program 9 of $page notices that there is no layout" 9 's/1, 40)/1, 3812)/' \
        'not laid out: no layout of these structures is acceptable'
    other_page_c "C program 9 of $page notices an ID of 0000h" 9 's/0x000C, 1/0x0000, 1/' 'not laid out: a space, rules or marks of 4,096 bytes are not lent'
    other_page_c "C program 9 of $page notices a version over 15" 9 's/0x000C, 1/0x000C, 16/' 'not laid out: a space, rules or marks of 4,096 bytes are not lent'
    other_page_c "C program 9 of $page notices a length that does not fit 16 bits" 9 's/1, 22)/1, 65558)/' \
        'not laid out: a space, rules or marks of 4,096 bytes are not lent'
    other_page_c "C program 9 of $page notices that there is no space" 9 's/&space, &layout/NULL, \&layout/' \
        'not laid out: a space, rules or marks of 4,096 bytes are not lent'
    other_page_c "C program 10 of $page notices that it was not done" 10 \
        's/thawribbon_pair_serve(&pair, type0_write, sizeof type0_write, &answer) != THAWRIBBON_DONE/sizeof type0_write == 0/' \
        'not done: Unsupported Request: the access was not done'
    other_page_c "C program 10 of $page notices that it was for neither function" 10 's/\.function = 1/.function = 2/' \
        'not done: Unsupported Request: the access was not done'
    other_page_c "C program 10 of $page notices that it has not landed" 10 's/\[0x010\] = 0xFF/[0x010] = 0xF0/' 'done, and not landed'
    other_page_c "C program 10 of $page notices that the board has no edition" 10 '/\.edition = THAWRIBBON_EDITION_1/d' \
        'not done: a space, rules or marks of 4,096 bytes are not lent'
    other_page_c "C program 10 of $page notices that both functions have one number" 10 's/\.function = 1/.function = 0/' \
        'the two functions of a board have one number'
    other_page_c "C program 10 of $page notices that both functions have one space" 10 's/&ordinary\[1\]/\&ordinary[0]/' \
        'not done: a space, rules or marks of 4,096 bytes are not lent'
    other_page_c "C program 10 of $page notices a record with another function" 10 's/0x02, 0x03}}}/0x04, 0x03}}}/' \
        "$(sed -n 's/.*second 02h the program would print `\(landed, but [^`]*\)`.*/\1/p' $page)"
    other_page_c "C program 10 of $page notices a record with another device" 10 's/0x02, 0x03}}}/0x02, 0x04}}}/' \
        'landed, but the record has another function than the alternate'
    other_page_c "C program 10 of $page notices that there is no record" 10 's/\[0x040\] = 0x09/[0x040] = 0x08/' \
        'landed, but this is not the structure asked for'
    other_page_c "C program 11 of $page gives up where no reply comes" 11 's/TRIES = 3/TRIES = 1/' \
        "$(sed -n 's/.*With `TRIES = 1` it would print `\([^`]*\)`.*/\1/p' $page)"
    other_page_c "C program 11 of $page gives up at a board that refuses every packet" 11 's/\.function = 0/.function = 8/' \
        'no reply, tries: 3'
    if [ "$(grep -c '^dropped a packet' "$work/log")" -ne 3 ]; then echo "FAILED C program 11 of $page does not tell of each packet that is dropped"; fi
    other_page_c "C program 11 of $page notices that it was not done" 11 's/!ask(type0_write, 6, &heard)/type0_write.kind == 0/' \
        'not done: Unsupported Request: the access was not done'
    other_page_c "C program 11 of $page notices that it has not landed" 11 's/\[0x010\] = 0xFF/[0x010] = 0xF0/' 'done, and not landed'
    other_page_c "C program 11 of $page notices that there is nothing to send" 11 's/0, 0x010/0, 0x012/' 'nothing to send: '
}

# The example at the top of the header.
header_example() {
    { printf '#include <string.h>\n#include "thawribbon.h"\n' && sed -n '1,/\*\//s/^ \*     //p' "$built/thawribbon.h"; } >"$work/renew.c"
    cat hosts/c/example/renew.c >>"$work/renew.c"
    echo 010 >"$work/expected"
    try 'the example of thawribbon.h compiles' cc "${c[@]}" -I "$built" "$work/renew.c" "$archive" -o "$work/renew" &&
        prints 'the example of thawribbon.h tells what has landed' "$work/expected" "$work/renew"
}

# rule N: the row of docs/RULES.md
rule() { grep -F "| $1 |" docs/RULES.md; }

# header_and_rules: the rules that the header names are there; its type codes and its causes of UR, also the crate's, are those of the rules
header_and_rules() {
    local number code cause causes bad=0
    for number in $(grep -oE 'rule [0-9]+\.[0-9]+' "$built/thawribbon.h" | sed 's/rule //'); do
        [ -n "$(rule "$number")" ] || { echo "FAILED thawribbon.h names rule $number, which docs/RULES.md does not have" && bad=1; }
    done
    for code in $(sed -nE 's/^#define THAWRIBBON_(TYPE0|TYPE1|TRUSTED)_(READ|WRITE) 0x(..)$/\3h/p' "$built/thawribbon.h"); do
        rule 3.2 | grep -qF "$code" || { echo "FAILED rule 3.2 has no type code $code" && bad=1; }
    done
    causes=$(sed -n '/UR is answered to these/,/\*\//s/^ \* - //p' "$built/thawribbon.h")
    [ "$(printf '%s\n' "$causes" | wc -l)" -eq 5 ] || { echo 'FAILED thawribbon.h has another count of causes than five' && bad=1; }
    while IFS= read -r cause; do
        rule 4.1 | grep -qE "to $cause[;.]" || { echo "FAILED rule 4.1 does not have the cause: $cause" && bad=1; }
        grep -qx "    /// - $cause" hosts/thawribbon/src/board.rs || { echo "FAILED the crate does not have the cause: $cause" && bad=1; }
    done <<<"$causes"
    [ "$bad" -ne 0 ] || echo 'ok the rules, type codes and causes of thawribbon.h are those of docs/RULES.md'
}

# flags FOLDER: the words of thawribbon.pc for a compiler, a line each: by pkg-config where it is there, and else read here
flags() {
    local folder=$1/lib/pkgconfig
    if command -v pkg-config >"$work/log"; then
        PKG_CONFIG_PATH=$folder pkg-config --cflags --libs thawribbon | xargs -n 1
    else
        sed -n 's/^\(Cflags\|Libs\): //p' "$folder/thawribbon.pc" | tr ' ' '\n' |
            sed -e "s|\${includedir}|\${prefix}/include|; s|\${libdir}|\${prefix}/lib|; s|\${prefix}|$folder/../..|"
    fi
}

# The archive as it is installed, after its folder was moved.
installed() {
    local prefix="$work/a prefix" words=()
    mv "$work/prefix" "$prefix"
    try './library --prefix installs the archive that it built' cmp "$archive" "$prefix/lib/libthawribbon.a"
    try './library --prefix installs the header' cmp hosts/include/thawribbon.h "$prefix/include/thawribbon.h"
    try 'thawribbon.pc says the version' grep -qx "Version: $(cat VERSION)" "$prefix/lib/pkgconfig/thawribbon.pc"
    if grep -rqF "$work" "$prefix"; then echo 'FAILED an installed file has the prefix in it'; else echo 'ok no installed file has the prefix in it'; fi
    mapfile -t words < <(flags "$prefix")
    fenced $page c 1 >"$work/page.c"
    printed $page c 1 >"$work/page.text"
    try 'a program compiles with the flags of thawribbon.pc, after the prefix was moved' cc "${c[@]}" "$work/page.c" "${words[@]}" -o "$work/page" &&
        prints 'a program that was compiled with them runs' "$work/page.text" "$work/page"
}

options() {
    ends './library tells of a word that is no option' 2 '--prefx is no option' ./library --prefx "$work/none"
    ends './library wants a folder behind --prefix' 2 '--prefix wants a folder' ./library --prefix
    ends './library wants a folder behind --prefix=' 2 '--prefix wants a folder' ./library --prefix=
    ends './library --help tells the options' 0 '--prefix DIR' ./library --help
    ends './library wants HOME for a tilde' 2 'HOME is not set' env -u HOME ./library '--prefix=~/none'
    ends "./library leaves another one's home alone" 2 'write the folder out' ./library --prefix '~nobody/none'
}

# A second build, in another folder, from the same sources and the same proofs; and one by a kit that has not proved all.
built_again() {
    local copy="$work/another folder"
    mkdir -p "$copy"
    tar -c --exclude=crates/*/out --exclude=hosts/target crates crates.txt library VERSION hosts | tar -x -C "$copy"
    # A shell leaves the tilde behind an = as it is.
    try './library builds in another folder' env HOME="$work" "$copy/library" '--prefix=~/home' &&
        try './library --prefix=~/.. installs in the home folder' cmp "$copy/$archive" "$work/home/lib/libthawribbon.a" &&
        try 'two builds in two folders are byte for byte the same' cmp "$archive" "$copy/$archive"
    mkdir "$work/fake"
    printf '#!/bin/sh\necho "logic=open functions=17"\n' >"$work/fake/rt"
    chmod +x "$work/fake/rt"
    ends './library wants a verdict that all is proved' 1 'does not say that all is proved' \
        env PATH="$work/fake:$PATH" "$copy/library"
    printf '#!/bin/sh\necho aarch64\n' >"$work/fake/uname"
    chmod +x "$work/fake/uname"
    ends './library says that the kit compiles for x86-64 alone' 2 'compiles for x86_64 and no other processor' env PATH="$work/fake:$PATH" "$copy/library"
}

options
# From another folder, with a prefix that is no absolute path.
try './library --prefix builds the archive' within "$work" "$PWD/library" --prefix prefix || exit 0
try './library copies the header' cmp hosts/include/thawribbon.h "$built/thawribbon.h"
built_again
if ! command -v cc >"$work/log"; then
    missing 'the library from C' cc
    exit 0
fi
in_c
nothing_used
in_cpp
mistakes_are_seen
page_in_c
page_without_board 5 'thawribbon_read_completion thawribbon_write_request'
page_without_board 7 'thawribbon_judge thawribbon_multicast'
page_without_board 9 'thawribbon_check_layout thawribbon_plan_layout thawribbon_write_layout'
page_languages
page_notices
header_example
header_and_rules
installed
exit 0
