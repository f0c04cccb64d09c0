# Every block of docs/REVIEW.md stands, as it is, in the file of crates/ that it names.
page=docs/REVIEW.md
work=$(mktemp -d) || exit 2
trap 'rm -rf "$work"' EXIT
awk -v dir="$work" '
    /^```antt / { file = $2; n++; out = dir "/" n ".block"; print file > (dir "/" n ".file"); on = 1; next }
    /^```$/ && on { on = 0; next }
    on { print > out }
' "$page"
bad=0 seen=0
# stands BLOCK FILE: the lines of the block follow one another in the file, and nothing follows them that would belong to them
stands() {
    awk 'NR == FNR { block[++n] = $0; next } { text[++m] = $0 }
        END { for (i = 0; i + n <= m; i++) { for (j = 1; j <= n && text[i + j] == block[j]; j++); if (j > n && n > 0 && text[i + j] == "") exit 0 } exit 1 }' "$1" "$2"
}
for block in "$work"/*.block; do
    [ -f "$block" ] || continue
    seen=$((seen + 1))
    file=crates/$(cat "${block%.block}.file")
    if [ ! -f "$file" ]; then
        echo "FAILED review: $page has a block of $file, which is not there" && bad=1
    elif ! stands "$block" "$file"; then
        echo "FAILED review: a block of $page does not stand in $file: $(head -n 1 "$block")" && bad=1
    fi
done
printf 'a\nc\n' >"$work/other"
printf 'a\nb\nc\n' >"$work/whole"
if stands "$work/other" "$work/whole"; then echo 'FAILED review: lines that do not follow one another are taken for a block' && bad=1; fi
printf 'a\nb\n' >"$work/other"
if stands "$work/other" "$work/whole"; then echo 'FAILED review: the head of a longer statement is taken for a block' && bad=1; fi
[ "$seen" -ge 8 ] || { echo "FAILED review: $page has only $seen blocks" && bad=1; }
[ "$bad" -eq 0 ] && echo "ok the $seen statements of $page stand in the sources"
exit 0
