# shellcheck shell=sh
# For ./library and ./benchmark, which source it at the top of the repository: `static CRATE` proves a crate and compiles it for any x86-64
# processor: the kit has no other. It sets $tools, the folder of the kit's clang and llvm-ar, and makes a folder $work, which goes when they end.
me=$(basename "$0")
rt=$(command -v rt) || { echo "$me: the Rattle kit's rt is not on the PATH" >&2; exit 2; }
while [ -L "$rt" ]; do
    link=$(readlink "$rt")
    case $link in /*) rt=$link ;; *) rt=$(dirname "$rt")/$link ;; esac
done
# shellcheck disable=SC2034
tools=$(cd "$(dirname "$rt")/.." && pwd -P)/toolchain/bin
machine=$(uname -m)
[ "$machine" = x86_64 ] || { echo "$me: the Rattle kit compiles for x86_64 and no other processor, and this one is $machine" >&2; exit 2; }

work=$(mktemp -d)
trap 'rm -rf "$work"' EXIT

# static CRATE: proves it, compiles it to target/staticlib/libCRATE.a, and adds what the kit says of it to $work/verdict
static() {
    if ! (cd "crates/$1" && "$rt" lib --cpu x86-64) >"$work/log" 2>&1 </dev/null; then
        cat "$work/log" >&2
        exit 1
    fi
    grep '^logic=' "$work/log" | tail -n 1 | grep '^logic=proved .* target=x86_64-' >>"$work/verdict" ||
        { echo "$me: rt lib in crates/$1 does not say that all is proved" >&2; exit 1; }
    mkdir -p target/staticlib
    cp "crates/$1/out/lib$1.a" target/staticlib/
}
