# The pages are true of the sources in what they name: definitions and theorems, files, links, must-fail edits, parts of the sheet, and the
# rules. A page is README.md, CHANGELOG.md or one of docs/ and samples/.
pages=$(ls README.md CHANGELOG.md docs/*.md samples/*.md 2>/dev/null)
sheet=crates/desk/stdin
work=$(mktemp -d) || exit 2
trap 'rm -rf "$work"' EXIT
bad=0 seen=0
wrong() { echo "FAILED $1"; bad=1; }
right() { # WORDS: where nothing was wrong since the last time, and something was seen
    if [ "$seen" -eq 0 ]; then echo "FAILED nothing is cited: $1"; elif [ "$bad" -eq 0 ]; then echo "ok $seen $1"; fi
    bad=0 seen=0
}

# declares FILE NAME: the file has a public declaration of that name, and not only a field of a record
declares() {
    awk -v n="$2" '
        /^[^ ]/ { fields = /(^| )record / }
        { line = $0; inner = sub(/^ +/, "", line); sub(/^((abbrev|unfoldable) )+/, "", line)
          if (sub(/^pub ((data|record) )?/, "", line) && !(inner && fields)) { split(line, word, " "); if (word[1] == n) found = 1 } }
        END { exit !found }' "$1"
}

# `CRATE/FOLDER/FILE: NAME` names a declaration, CRATE/FOLDER/FILE.antt and `tests/..`, `crates/..`, `hosts/..` a file or folder.
while IFS= read -r row; do
    page=${row%%:*} cited=${row#*:}
    file=crates/${cited%%:*}.antt name=${cited#*: }
    seen=$((seen + 1))
    if [ ! -f "$file" ]; then
        wrong "$page cites $cited: there is no $file"
    elif ! declares "$file" "$name"; then
        wrong "$page cites $cited: $file declares no public $name"
    fi
done < <(grep -oE '`[a-z_]+/(specs|proofs)(/[A-Za-z_]+)+: [^`]+`' $pages | sed -E 's/:`/:/; s/`$//')
printf 'pub record R : Type 0 where\n  pub field : X\n\nmodule _ where\n  pub law : X\n\nhidden : X\n' >"$work/x.antt"
for name in R law; do declares "$work/x.antt" $name || wrong "names: $name is declared, and is not found"; done
for name in field hidden; do ! declares "$work/x.antt" $name || wrong "names: $name is taken for a public declaration"; done
right 'definitions and theorems that the pages cite stand where they say'
for file in $(grep -ohE '[a-z_]+/(specs|proofs)(/[A-Za-z_]+)+\.antt' $pages | sort -u); do
    seen=$((seen + 1))
    [ -f "crates/$file" ] || wrong "a page cites $file, which is not there"
done
for file in $(grep -ohE '`(tests|crates|hosts|docs|samples)/[A-Za-z0-9_./-]+`' $pages | tr -d '`' | grep -v NAME | sort -u); do
    seen=$((seen + 1))
    [ -e "$file" ] || wrong "a page cites $file, which is not there"
done
right 'files that the pages cite are there'
if grep -nE '@[A-Z]+@|^    .*# [A-Z]+$' $pages; then echo 'FAILED a page has a figure to fill in'; fi

# Links lead somewhere from the page's own folder.
for page in $pages; do
    for link in $(grep -oE '\]\([A-Za-z0-9_./-]+\)' "$page" | sed -E 's/^\]\(//; s/\)$//' | sort -u); do
        seen=$((seen + 1))
        [ -e "$(dirname "$page")/$link" ] || wrong "$page links $link, which is not there"
    done
done
right 'links of the pages lead somewhere'

# Every edit that TRACE names is there, and every edit that is there is named.
named=$(grep -oE 'must-fail [a-z0-9_]+/[a-z0-9_-]+(, [a-z0-9_]+/[a-z0-9_-]+)*' docs/TRACE.md | grep -oE '[a-z0-9_]+/[a-z0-9_-]+' | sort -u)
for edit in $named; do
    seen=$((seen + 1))
    [ -f "crates/${edit%%/*}/must-fail/${edit#*/}.edit" ] || wrong "docs/TRACE.md names the edit $edit, which is not there"
done
for file in crates/*/must-fail/*.edit; do
    edit=$(printf '%s\n' "$file" | sed -E 's|^crates/([^/]*)/must-fail/(.*)\.edit$|\1/\2|')
    printf '%s\n' "$named" | grep -qx "$edit" || wrong "docs/TRACE.md does not name the edit $edit"
done
right 'must-fail edits are those that docs/TRACE.md names'

# Every part of the sheet that TRACE names has a heading there.
for part in $(grep -oE 'sheet, [a-z]+' docs/TRACE.md | sed 's/sheet, //' | sort -u); do
    seen=$((seen + 1))
    grep -qi "^## .*$part" "$sheet" || wrong "docs/TRACE.md names the sheet's $part, and $sheet has no such heading"
done
right 'parts of the sheet that docs/TRACE.md names are there'

# Every rule has a number of its own, in order, and a row in TRACE; and every row is a rule's.
rules=$(sed -nE 's/^\| ([0-9]+\.[0-9]+) \|.*/\1/p' docs/RULES.md)
rows=$(sed -nE 's/^\| ([0-9]+\.[0-9]+) \|.*/\1/p' docs/TRACE.md | uniq)
for rule in $rules; do
    seen=$((seen + 1))
    printf '%s\n' "$rows" | grep -qxF "$rule" || wrong "rule $rule of docs/RULES.md has no row in docs/TRACE.md"
done
for rule in $rows; do
    printf '%s\n' "$rules" | grep -qxF "$rule" || wrong "docs/TRACE.md has a row for rule $rule, and docs/RULES.md has no such rule"
done
[ "$rules" = "$(printf '%s\n' "$rules" | sort -t . -k 1,1n -k 2,2n -u)" ] || wrong 'the rules of docs/RULES.md are not in order, or a number stands twice'
right 'rules have a row each'

# What has to be believed rests on nothing that private functions tell each other: no other file of specs/ brings in an Inner.
for file in crates/*/specs/*.antt; do
    case $file in */Inner.antt | */Lib.antt) continue ;; esac
    seen=$((seen + 1))
    ! grep -q 'specs\.Inner' "$file" || wrong "$file rests on an Inner.antt"
done
right 'definitions files rest on no Inner'
exit 0
