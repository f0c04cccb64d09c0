# No file of Rattle or antt brings in a name that it does not use.
# unused FILE..: a line 'FILE: NAME' for each name of a `use` line that stands nowhere else in its file, comments left out.
unused() {
    awk '
    BEGIN { calls["Read"] = "read"; calls["IsTerminal"] = "is_terminal" } # a trait is brought in for its methods
    function ended(   name, parts, count, i, used) {
        for (name in brought) {
            used = name in seen || (name in calls && calls[name] in seen)
            # an operator is brought with a ◌ for each of its places, and used without, or as a whole
            if (!used && index(name, "◌")) {
                used = 1
                count = split(name, parts, "◌")
                for (i = 1; i <= count; i++) if (parts[i] != "" && !(parts[i] in seen)) used = 0
            }
            if (!used) print file ": " name
        }
        delete brought
        delete seen
    }
    function bare(name) {
        sub(/^.* as +/, "", name)
        sub(/^.*(\.|::)/, "", name)
        gsub(/ /, "", name)
        return name
    }
    function bring(list,   names, count, i) {
        count = split(list, names, /[{},]/)
        for (i = 1; i <= count; i++) if (names[i] !~ /(^ *|::)$/) brought[bare(names[i])]
    }
    function note(text,   words, count, i) {
        count = split(text, words, / +/)
        for (i = 1; i <= count; i++) seen[words[i]]
    }
    FNR == 1 {
        if (file != "") ended()
        file = FILENAME
        code = file ~ /\.rt$/
        comment = code ? "//.*" : "(^| )-- .*"
        line = ""
    }
    # a list that goes over lines is one
    line != "" { sub(comment, ""); $0 = line " " $0; line = "" }
    /^(ghost |pub )?use [^{]*\{[^}]*$/ { line = $0; next }
    /^(ghost |pub )?use / {
        if ($0 ~ /^pub /) next
        sub(/;$/, "")
        # self in a list is the module that the list is of
        if (match($0, /::\{/)) { module = substr($0, 1, RSTART - 1); sub(/^.*(::| )/, "", module); sub(/\{self/, "{" module); sub(/, self/, ", " module) }
        if (match($0, /\{.*\}$/)) bring(substr($0, RSTART + 1, RLENGTH - 2))
        else if (match($0, / as [^ ]*$/)) brought[substr($0, RSTART + 4)]
        else if (match($0, /(::|\.)[^ .:]*$/)) brought[bare(substr($0, RSTART))]
        next
    }
    {
        sub(comment, "")
        gsub(/[(){},;."]/, " ")
        note($0)
        if (code) { gsub(/[:&<>!*?-]/, " "); gsub(/\[/, " "); gsub(/\]/, " "); note($0) }
    }
    END { if (file != "") ended() }' "$@"
}
work=$(mktemp -d) || exit 2
trap 'rm -rf "$work"' EXIT
files=$(find crates -name out -prune -o \( -name '*.antt' -o -name '*.rt' \) -print | sort)
# shellcheck disable=SC2086
found=$(unused $files) || found="the search itself failed"
if [ -z "$found" ]; then echo "ok no file brings in a name that it does not use"; else printf 'FAILED an import that nothing uses: %s\n' "$(printf '%s' "$found" | head -n 20 | tr '\n' ';')"; fi

# noticed NAME NAMES FILE: of this file, on standard input, these names are told, and no other
noticed() {
    local told
    cat >"$work/$3"
    told=$(unused "$work/$3" | sed 's/^.*: //' | sort | tr '\n' ' ')
    if [ "$told" = "$2" ]; then echo "ok $1 is noticed"; else echo "FAILED $1 is told as '$told', and not as '$2'"; fi
}
noticed 'an import that nothing uses' 'take ' x.antt <<'FILE'
use Rattle.std.proofs.Common.{length, take}
use mathlib.Core.Path.{◌≡◌, refl as same}
x : length y ≡ 0 -- take same
x = same
FILE
noticed 'an operator or a module that nothing uses' 'goal ◌<◌ ◌≡◌ ' x.antt <<'FILE'
use Rattle.std.proofs.Common.{◌≡◌, ◌+◌, ◌<◌, if◌then◌else◌}
use Rattle.x.proofs.f.Goals as goal
use mathlib.Core.List.Memᴰ
x : Memᴰ.Of (if a + b then c else d)
x = (◌+◌) b.goals
FILE
noticed 'an import of Rattle that nothing uses' 'IsTerminal below slots ◌≤◌ ' x.rt <<'FILE'
ghost use Rattle.std.specs.Prelude.{◌≤◌, length};
use crate::{
    pieces, slots, // pieces of
    wording,
};
use std::io::{IsTerminal, Read, Stdin};
use words::below;
fn x(stdin: &mut Stdin) -> usize
    ensures { length piece.new }
{
    pieces::of(stdin.read(wording::ALL)?)
}
FILE
