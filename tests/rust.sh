# The library as Rust hosts use it: the crate's tests and examples, clippy, rustfmt and rustdoc, the programs of docs/LIBRARY.md as they stand
# there, what rustc has to warn of or refuse, and archives that the crate's build must refuse. Where a tool is missing, what needs it is
# skipped, or failed where CI is set.
. tests/common/host_tools.bash
page=docs/LIBRARY.md
sources=hosts/thawribbon/src
# The tests and examples that there are at least.
least_tests=248
least_examples=62
export CARGO_TERM_COLOR=never

# passed PART: how many tests, or examples, the last run of cargo test passed; it runs the examples last
passed() {
    awk -v part="$1" '/Doc-tests/ { on = 1 } /^test result: / && on == (part == "examples") { n += $4 } END { print n + 0 }' "$work/out"
}

crate() {
    local status part least
    within hosts cargo test --release --offline --locked -p thawribbon >"$work/out" 2>&1 </dev/null
    status=$?
    for part in tests examples; do
        least=least_$part
        if [ "$status" -eq 0 ] && [ "$(passed $part)" -ge "${!least}" ]; then
            echo "ok the Rust crate, $(passed $part) $part"
        else
            echo "FAILED the Rust crate, $part: status $status, $(passed $part) passed of at least ${!least}," \
                "$(grep -E '^test .* FAILED$|^error' "$work/out" | head -n 3 | tr '\n' ' ' | cut -c 1-300)"
        fi
    done
}

# tool NAME CHECK COMMAND..: a check by a part of cargo that may be missing
tool() {
    local name=$1 check=$2
    shift 2
    if cargo "$name" --version >"$work/log" 2>&1; then try "$check" within hosts "$@"; else missing "$check" "cargo $name"; fi
}

looked_over() {
    try "./benchmark --build builds the benchmark's own archive" ./benchmark --build
    tool clippy 'clippy finds nothing in hosts/' \
        cargo clippy --release --offline --locked --workspace --all-targets -- -D warnings
    tool fmt 'hosts/ is laid out as rustfmt does' cargo fmt --all --check
    try 'rustdoc finds nothing in the crate' \
        within hosts env RUSTDOCFLAGS='-D warnings' cargo doc --offline --locked --no-deps -p thawribbon
    try 'the benchmark builds, and its tests pass' within hosts cargo test --release --offline --locked -p speed
}

# package NAME: a package beside the repository, which names the crate by its path as the page says; its main.rs comes from standard input
package() {
    mkdir -p "$work/$1/src"
    [ -e "$work/thawribbon" ] || ln -s "$PWD" "$work/thawribbon"
    { printf '[package]\nname = "%s"\nedition = "2024"\n\n' "$1" && fenced $page toml 1; } >"$work/$1/Cargo.toml"
    cat >"$work/$1/src/main.rs"
}

# The Rust programs of the page, and what it says that they print.
page_in_rust() {
    local n ran=0
    for ((n = 1; n <= $(blocks $page rust); n++)); do
        fenced $page rust $n | package "page$n"
        printed $page rust $n >"$work/page.text"
        try "Rust program $n of $page compiles" within "$work/page$n" cargo build --offline &&
            prints "Rust program $n of $page prints what it says" "$work/page.text" cargo run --offline --quiet \
                --manifest-path "$work/page$n/Cargo.toml" && ran=$((ran + 1))
    done
    all_run $page rust $ran
}

# other_page_rust NAME N SCRIPT TEXT: the page's N-th Rust program, changed by sed, ends with 1 and this text
other_page_rust() {
    fenced $page rust "$2" | sed "$3" | package notices
    if fenced $page rust "$2" | cmp -s - "$work/notices/src/main.rs"; then echo "FAILED $1: nothing was changed"; fi
    ends "$1" 1 "$4" within "$work/notices" cargo run --offline --quiet
}

# What is wrong, the programs of the page notice.
page_notices() {
    other_page_rust "Rust program 1 of $page stops at a write that was not done" 1 '/board.serve(&type0_write)?;/d' \
        'Error: Unsupported(Completion { status: Unsupported'
    other_page_rust "Rust program 1 of $page notices that it has not landed" 1 's/\[0xFF; SPACE\]/[0xF0; SPACE]/' 'done, and not landed'
    other_page_rust "Rust program 2 of $page stops at a board that is badly described" 2 's/function: 0/function: 8/' 'Error: BadDescription'
    if [ "$(grep -c '^dropped' "$work/log")" -ne 1 ]; then echo "FAILED Rust program 2 of $page goes on with a board that is badly described"; fi
    other_page_rust "Rust program 3 of $page tells where a list is broken" 3 's/0x23, 0x00, 0x01, 0x14/0x23, 0x00, 0x01, 0x10/' \
        "$(sed -n 's/.*the program would end with `\(Error: [^`]*\)`.*/\1/p' $page)"
    other_page_rust "Rust program 4 of $page stops where a port does not support TCS routing" 4 's/tcs: true/tcs: false/' 'Error: Refused(UnknownType)'
    other_page_rust "Rust program 4 of $page stops where no port has the bus" 4 's/0x06, 0x18/0x07, 0x18/' 'Error: Unsupported'
    other_page_rust "Rust program 5 of $page stops at a write that was not done" 5 '/type0_write/d' 'Error: Unsupported(Completion { status: Unsupported'
    other_page_rust "Rust program 5 of $page notices that it has not landed" 5 's/\[0xFF; SPACE\]/[0xF0; SPACE]/' 'done, and not landed'
    other_page_rust "Rust program 5 of $page stops at parts that are no request" 5 's/0x010/0x012/' 'Error: Refused(BadDescription)'
    other_page_rust "Rust program 6 of $page stops at a completion of another request" 6 's/by(host, 8)/by(host, 9)/' 'Error: Other(Completion'
    other_page_rust "Rust program 7 of $page stops at a bit in both rules and marks" 7 's/\[0; SPACE\], \[0; SPACE\]);/[0x01; SPACE], [0; SPACE]);/' 'Error: Refused(BadDescription)'
    other_page_rust "Rust program 8 of $page stops at a port without a Multicast capability" 8 's/\[0x12, 0x00/[0x24, 0x00/' 'Error: OtherStructure'
    other_page_rust "Rust program 8 of $page stops at more groups than there may be" 8 's/0x3F, 0x00, 0x03/0x02, 0x00, 0x03/' 'Error: WrongGroups'
    other_page_rust "Rust program 8 of $page stops where there is no such port" 8 's/judge(&ports, 0,/judge(\&ports, 3,/' 'Error: BadDescription'
    other_page_rust "Rust program 9 of $page stops at a number that is no edition" 9 's/in \[1, 2\]/in [1, 3]/' \
        "$(sed -n 's/.*With 3 in the place of 2 it would end with `\(Error: [^`]*\)`.*/\1/p' $page)"
    other_page_rust "Rust program 10 of $page stops where there is no layout" 10 's/length: 40/length: 3812/' 'Error: NoLayout'
    other_page_rust "Rust program 10 of $page stops at an ID of 0000h" 10 's/id: 0x000C/id: 0x0000/' 'Error: BadDescription'
    other_page_rust "Rust program 10 of $page stops at a room that is too small" 10 's/\[0; List::Extended.maximum()\]/[0; 2]/' 'Error: NoRoom'
    other_page_rust "Rust program 10 of $page stops at a layout that is not accepted" 10 's/0x100, 0x200/0x100, 0x114/' \
        "$(sed -n 's/.*inside the first structure, it would end with `\(Error: [^`]*\)`.*/\1/p' $page)"
    other_page_rust "Rust program 11 of $page stops at a device that nothing was captured of" 11 '/type0_write(primary/d' \
        "$(sed -n 's/.*Without its first request it would end with `\(Error: [^`]*\)`.*/\1/p' $page)"
    other_page_rust "Rust program 11 of $page stops at functions with one number" 11 's/function: 1, a/function: 0, a/' \
        "$(sed -n 's/.*in both sides with `\(Error: [^`]*\)`.*/\1/p' $page)"
    other_page_rust "Rust program 11 of $page stops at a record that names another function" 11 's/function: 1, a/function: 2, a/' 'Error: Other(Alternate'
    other_page_rust "Rust program 11 of $page stops where there is no record" 11 's/0x09, 0, 0x0C/0x08, 0, 0x0C/' 'Error: Refused(OtherStructure)'
    other_page_rust "Rust program 11 of $page stops at a write that was not done" 11 '/type0_write(alternate/d' 'Error: Unsupported(Completion { status: Unsupported'
    other_page_rust "Rust program 11 of $page notices that it has not landed" 11 's/\[0xFF; SPACE\]/[0xF0; SPACE]/' 'done, and not landed'
    other_page_rust "Rust program 12 of $page gives up where no reply comes" 12 's/TRIES: usize = 3/TRIES: usize = 1/' 'Error: "no reply, tries: 1"'
    other_page_rust "Rust program 12 of $page stops at a board that is badly described" 12 's/function: 0, a/function: 8, a/' 'Error: BadDescription'
    other_page_rust "Rust program 12 of $page stops at a write that was not done" 12 '/type0_write/d' 'Error: Unsupported(Completion { status: Unsupported'
    other_page_rust "Rust program 12 of $page notices that it has not landed" 12 's/\[0xFF; SPACE\]/[0xF0; SPACE]/' 'done, and not landed'
}

# The page's N-th Rust program has no board: of the archive, only the asking side is linked.
page_without_board() {
    local linked
    fenced $page rust "$1" | package alone
    try "Rust program $1 of $page compiles by itself" within "$work/alone" cargo build --offline --target-dir "$work/alone/target" || return
    linked=$(nm "$work/alone/target/debug/alone" | awk '$2 == "T" && $3 ~ /^thawribbon_/ { print $3 }' | sort | tr '\n' ' ')
    if [ "$linked" = 'thawribbon_read_completion thawribbon_write_request ' ]; then
        echo "ok Rust program $1 of $page is linked without a board"
    else
        echo "FAILED Rust program $1 of $page is linked with $linked"
    fi
}

# Every function of the crate that gives something is one whose answer may not be dropped. A type that says so of itself may not be dropped
# behind a question mark either.
answers_are_not_dropped() {
    local functions types wanted found
    package dropped <hosts/thawribbon/tests/wrong/dropped.rs
    functions=$(cat $sources/*.rs | grep -E '^ *pub (const )?fn ' | grep -cvE '\) \{$')
    types=$(cat $sources/*.rs | grep -A 1 '^#\[must_use' | grep -cE '^pub (struct|enum) ')
    wanted=$((functions + types))
    found=$(within "$work/dropped" cargo check --offline 2>&1 | grep -c '^warning: unused .* that must be used$')
    if [ "$wanted" -gt 10 ] && [ "$found" -eq "$wanted" ]; then
        echo "ok rustc warns of all $wanted answers that are dropped"
    else
        echo "FAILED rustc warns of $found of $wanted answers that are dropped"
    fi
}

# What the page says of the crate besides: a match needs a last arm, a port's fields have no default, a description needs an edition, which has
# none either, nobody makes a layout by hand, two functions are not lent one space, and unsafe stands in one file.
crate_is_as_told() {
    package no_last_arm <hosts/thawribbon/tests/wrong/no_last_arm.rs
    ends 'rustc wants a last arm of a match on a refusal' 101 'non-exhaustive patterns: `_` not covered' within "$work/no_last_arm" cargo check --offline
    package no_default <hosts/thawribbon/tests/wrong/no_default.rs
    ends 'rustc has no default for the fields of a port that was not read' 101 'the trait bound `Groups: Default` is not satisfied' within "$work/no_default" cargo check --offline
    package no_edition <hosts/thawribbon/tests/wrong/no_edition.rs
    ends 'rustc wants an edition of every description' 101 'missing field `edition` in initializer of `thawribbon::Description`' within "$work/no_edition" cargo check --offline
    ends 'rustc wants an edition of every board of two functions' 101 'missing field `edition` in initializer of `Pair' within "$work/no_edition" cargo check --offline
    ends 'rustc has no default for an edition' 101 'the trait bound `Edition: Default` is not satisfied' within "$work/no_edition" cargo check --offline
    package own_layout <hosts/thawribbon/tests/wrong/own_layout.rs
    ends 'rustc lets nobody make a layout that is not checked' 101 'of struct `thawribbon::Layout` are private' within "$work/own_layout" cargo check --offline
    package one_space_twice <hosts/thawribbon/tests/wrong/one_space_twice.rs
    ends 'rustc lets nobody lend two functions one space' 101 'cannot borrow `ordinary` as mutable more than once at a time' within "$work/one_space_twice" cargo check --offline
    if [ "$(grep -lw unsafe hosts/thawribbon/build.rs $sources/*)" = $sources/raw.rs ]; then
        echo 'ok unsafe stands only in raw.rs'
    else
        echo "FAILED unsafe stands only in raw.rs: it is in $(grep -lw unsafe hosts/thawribbon/build.rs $sources/* | tr '\n' ' ')"
    fi
}

# refuses NAME FOLDER TEXT: with this folder as THAWRIBBON_LIBRARY the crate's build ends with this text
refuses() {
    ends "the crate's build refuses $1" 101 "$3" within hosts env THAWRIBBON_LIBRARY="$2" CARGO_TARGET_DIR="$work/refused" \
        cargo check --offline --locked -p thawribbon
}

archives_are_looked_at() {
    local prefix=$work/prefix
    mkdir -p "$work/bare" "$prefix/lib" "$prefix/include"
    cp "$archive" "$work/bare/"
    cp "$archive" "$prefix/lib/"
    cp "$built/thawribbon.h" "$prefix/include/"
    refuses 'a folder by a relative path' target/library 'which is not an absolute path'
    refuses 'a folder without an archive' "$work" 'libthawribbon.a: THAWRIBBON_LIBRARY must name the folder that has it'
    refuses 'an archive without a header' "$work/bare" 'there is no thawribbon.h beside'
    try "the crate's build takes an archive that is installed" within hosts env THAWRIBBON_LIBRARY="$prefix/lib" CARGO_TARGET_DIR="$work/refused" \
        cargo check --offline --locked -p thawribbon
    sed 's/^#define THAWRIBBON_VERSION ".*"$/#define THAWRIBBON_VERSION "0.0.9"/' "$built/thawribbon.h" >"$prefix/include/thawribbon.h"
    refuses 'an archive of another version' "$prefix/lib" 'is of version 0.0.9'
}

for tool in cc cargo; do
    "$tool" --version >"$work/log" 2>&1 && continue
    missing 'the library from Rust' "$tool"
    exit 0
done
is_built || try './library builds the archive' ./library || exit 0
crate
looked_over
page_in_rust
page_without_board 6
page_notices
answers_are_not_dropped
crate_is_as_told
archives_are_looked_at
exit 0
