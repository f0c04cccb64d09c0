# What the tests of the host side share; they source it at the top of the repository. It makes a folder $work, which goes when they end.
unset THAWRIBBON_LIBRARY
export LC_ALL=C # what compilers say is looked at
built=target/library
archive=$built/libthawribbon.a
warnings=(-Wall -Wextra -Wpedantic -Wconversion -Wshadow -Wswitch-default -Werror)
c=(-std=c99 "${warnings[@]}" -Wstrict-prototypes)
cpp=(-std=c++17 "${warnings[@]}")
work=$(mktemp -d) || exit 2
trap 'rm -rf "$work"' EXIT

. tests/common/missing.bash

# try NAME COMMAND..: the command ends well; else its first errors are told, or its last words
try() {
    local name=$1 status
    shift
    "$@" >"$work/log" 2>&1 </dev/null
    status=$?
    if [ "$status" -eq 0 ]; then
        echo "ok $name"
    else
        echo "FAILED $name: status $status, $({ grep -m 2 'error' "$work/log" || tail -n 2 "$work/log"; } | tr '\n' ' ' | cut -c 1-300)"
    fi
    return "$status"
}

# within FOLDER COMMAND..: the command, run in a folder
within() { (cd "$1" && shift && "$@"); }

# ends NAME STATUS TEXT COMMAND..: the command ends with this status, and what it writes to either output has this text
ends() {
    local name=$1 wanted=$2 text=$3 status
    shift 3
    "$@" >"$work/log" 2>&1 </dev/null
    status=$?
    if [ "$status" -eq "$wanted" ] && grep -qF -- "$text" "$work/log"; then
        echo "ok $name"
    else
        echo "FAILED $name: status $status, and it wrote $(tail -n 4 "$work/log" | tr '\n' '|' | cut -c 1-300)"
    fi
}

# prints NAME FILE COMMAND..: the command ends well, and writes what the file holds
prints() {
    local name=$1 expected=$2
    shift 2
    timeout 120 "$@" >"$work/out" 2>"$work/log" </dev/null
    local status=$?
    if [ "$status" -eq 0 ] && [ -s "$expected" ] && cmp -s "$work/out" "$expected"; then
        echo "ok $name"
    else
        echo "FAILED $name: status $status, and it wrote $(cat "$work/log" "$work/out" | tail -n 4 | tr '\n' '|' | cut -c 1-300)"
        return 1
    fi
}

# fenced PAGE LANGUAGE N: the page's N-th block of a language
fenced() { awk -v fence="\`\`\`$2" -v wanted="$3" '/^```/ { on = $0 == fence && ++seen == wanted; next } on' "$1"; }

# blocks PAGE LANGUAGE: how many blocks of a language the page has
blocks() { grep -cx "\`\`\`$2" "$1"; }

# printed PAGE LANGUAGE N: what the page says that its N-th block of a language prints: the text before the next such block
printed() {
    awk -v fence="\`\`\`$2" -v wanted="$3" '
        /^```/ { on = 0; seen += $0 == fence; if ($0 == "```text" && seen == wanted && !told++) on = 1; next }
        on' "$1"
}

# all_run PAGE LANGUAGE COUNT: so many programs of a language were compiled and printed what the page says, and the page has no more
all_run() {
    local has
    has=$(blocks "$1" "$2")
    if [ "$has" -gt 0 ] && [ "$3" -eq "$has" ]; then
        echo "ok all $has blocks of $2 on $1 are compiled and run"
    else
        echo "FAILED $3 of the $has blocks of $2 on $1 are compiled and run"
    fi
}

# is_built: there is an archive that is newer than what it is made from
is_built() {
    [ -f "$archive" ] && [ -z "$(find crates crates.txt library VERSION hosts/static.sh hosts/include -name out -prune -o -type f -newer "$archive" -print | head -n 1)" ]
}

# The kit's own clang is the second compiler, so that there always is one. The kit has no C headers: the first compiler is asked where its
# own are.
tools=$(dirname "$(dirname "$(readlink -f "$(command -v rt)")")")/toolchain

# kit_clang LANGUAGE TARGET WORD..: the kit's clang, with the headers that cc has for c, and c++ for c++
kit_clang() {
    local language=$1 target=$2 first=cc folder headers=()
    shift 2
    [ "$language" = c ] || first=c++
    while IFS= read -r folder; do headers+=(-isystem "$folder"); done < <(
        LC_ALL=C "$first" -E -v -x "$language" /dev/null 2>&1 | sed -n '/^#include <\.\.\.>/,/^End of search/s/^ //p')
    "$tools/bin/clang" --target="$target" -nostdinc "${headers[@]}" -x "$language" "$@"
}
