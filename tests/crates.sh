# crates.txt lists every folder of crates/, and nothing else, lower layers first.
listed=$(sed 's/#.*//' crates.txt | sed -n 's/^[ \t]*\([a-z0-9_]*\)\([ \t]*staticlib\)\?[ \t]*:.*/\1/p')
for dir in crates/*/; do
    name=$(basename "$dir")
    if printf '%s\n' "$listed" | grep -qx "$name"; then echo "ok crate $name is listed"; else echo "FAILED crate $name: it is not listed in crates.txt"; fi
done
for name in $listed; do
    [ -d "crates/$name" ] || echo "FAILED crate $name: crates.txt lists it, and it is not there"
done
bad=0
# Of the kit's libraries io alone is listed. std is always there, and libc and os reach past what HANDLES allows, so that rt ci refuses them.
before=' io '
while IFS=: read -r name deps; do
    case $name in *' staticlib') name=${name% staticlib} archives="${archives:-} $name " ;; esac
    for dep in $deps; do
        case ${archives:-} in *" $dep "*) echo "FAILED crate $name: it stands on $dep, a static library, and none can"; bad=1 ;; esac
        case $before in *" $dep "*) ;; *) echo "FAILED crate $name: crates.txt lists it before $dep, on which it stands"; bad=1 ;; esac
    done
    before="$before$name "
done < <(sed 's/#.*//' crates.txt | grep ':')
[ "$bad" -eq 0 ] && echo "ok crates.txt goes from lower layers to higher"
exit 0
