# The independent second program of hosts/second. Its own tests, wrong subjects among them, in two builds: the one that is run, and one with
# debug assertions and overflow checks. Then runs of random packets, also for boards of two functions, doubled and swapped, spaces, ports,
# requests, completions, addresses and layouts against the library. The seed is of the clock, and printed; THAWRIBBON_SEED gives another. The whole output of a run that fails
# is kept in target/second.out.
# Skipped without cc or cargo; where CI is set, to anything but the empty word, nothing is skipped, and what is missing fails.
unset THAWRIBBON_LIBRARY
export CARGO_TERM_COLOR=never CARGO_TERM_QUIET=false CARGO_TERM_VERBOSE=false
release=(--release)
checked=(--config profile.dev.opt-level=1)
# The tests that there are, neither more nor fewer. The build with debug assertions has two more, which see that it has them.
release_tests='lib 276, main 2, wrong_subjects 944'
checked_tests='lib 278, main 2, wrong_subjects 944'
most=6000000
few=200000
archive=target/library/libthawribbon.a
page=docs/SECOND.md
work=$(mktemp -d) || exit 2
trap 'rm -rf "$work"' EXIT

for tool in cc cargo; do
    "$tool" --version >"$work/log" 2>&1 && continue
    if [ -n "${CI:-}" ]; then echo "FAILED second: no $tool on the PATH"; else echo "skipped second: no $tool on the PATH"; fi
    exit 0
done
if [ ! -f "$archive" ] || [ -n "$(find crates crates.txt library hosts/static.sh -name out -prune -o -type f -newer "$archive" -print | head -n 1)" ]; then
    ./library >"$work/log" 2>&1 || { echo "FAILED second: $(tail -n 1 "$work/log")" && exit 0; }
fi
classes=$(sed -n 's/.*There are \([0-9,]* classes in [0-9]* groups\).*/\1/p' "$page" | tr -d ,)
cd hosts || exit 2

# own_tests NAME TESTS OPTION..: the package's tests in a build; each part of them passes as many as it has
own_tests() {
    local name=$1 wanted=$2 status passed
    shift 2
    timeout 600 cargo test "$@" --offline --locked -p second >"$work/out" 2>&1 </dev/null
    status=$?
    passed=$(awk '
        /^ *Running unittests src\/lib\.rs/ { part = "lib" }
        /^ *Running unittests src\/main\.rs/ { part = "main" }
        /^ *Running tests\/wrong_subjects/ { part = "wrong_subjects" }
        /^test result: / && part != "" { printf "%s%s %s", (n++ ? ", " : ""), part, $4; part = "" }' "$work/out")
    if [ "$status" -eq 0 ] && [ "$passed" = "$wanted" ]; then
        echo "ok second, its tests $name: $passed"
        return 0
    fi
    echo "FAILED second, its tests $name: status $status, passed $passed of $wanted," \
        "$(grep -E '^test .* FAILED$|^error' "$work/out" | head -n 3 | tr '\n' ' ' | cut -c 1-300)"
    return 1
}

# run NAME STATUS WORD..: the program of a build with these words ends with this status; its output is kept
run() {
    local name=$1 wanted=$2 status
    shift 2
    timeout 600 cargo run "${build[@]}" --offline --locked --quiet -p second -- "$@" >"$work/out" 2>"$work/log" </dev/null
    status=$?
    [ "$status" -eq "$wanted" ] && return
    cat "$work/log" "$work/out" >../target/second.out
    echo "FAILED second, $name: status $status, $(grep -m 1 -E 'DIFFERENCE|BELOW' "$work/out") $(tail -n 1 "$work/out")" \
        "$(head -n 1 "$work/log"); target/second.out has it whole"
    return 1
}

# compared NAME LEAST WORD..: a run without a difference, of so many calls at least
compared() {
    local name=$1 least=$2 cases
    shift 2
    run "$name" 0 "$@" || return 1
    cases=$(sed -n 's/^\([0-9]*\) cases, 0 differences, seed [0-9]*$/\1/p' "$work/out")
    if [ "${cases:-0}" -ge "$least" ]; then
        echo "ok second, $name: $(tail -n 1 "$work/out")"
    else
        echo "FAILED second, $name: fewer than $least cases: $(tail -n 1 "$work/out")"
        return 1
    fi
}

own_tests 'as it is run' "$release_tests" "${release[@]}" || exit 0
own_tests 'with debug assertions and overflow checks' "$checked_tests" "${checked[@]}" || exit 0

seed=(${THAWRIBBON_SEED:+--seed "$THAWRIBBON_SEED"})
build=("${checked[@]}")
compared 'with debug assertions and overflow checks' "$few" --cases "$few" "${seed[@]}"
build=("${release[@]}")
if compared 'random packets, spaces, ports, requests, completions, addresses, layouts and boards of two functions' "$most" --cases "$most" "${seed[@]}"; then
    if [ -n "$classes" ] && grep -q -x "$classes" "$work/out"; then
        echo "ok second, $classes, as $page says"
    else
        echo "FAILED second, $page says '$classes': $(grep -x '[0-9]* classes in [0-9]* groups' "$work/out")"
    fi
fi
if run 'a seed' 0 --cases 1000 --seed 7; then
    cp "$work/out" "$work/first"
    run 'the seed again' 0 --cases 1000 --seed 7
    if cmp -s "$work/out" "$work/first"; then echo 'ok second, a seed gives its run again'; else echo 'FAILED second, a seed gives another run'; fi
fi
if run 'words that are none' 2 --cases many; then
    if [ -s "$work/log" ]; then echo 'ok second, words that are none are told'; else echo 'FAILED second, words that are none are not told'; fi
fi
exit 0
