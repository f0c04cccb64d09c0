# The listing program: what it writes for the spaces of samples/, and for inputs of every bad kind.
# Each sample is also made anew here from the bytes that samples/README.md names, and compared.
work=$(mktemp -d) || exit 2
trap 'rm -rf "$work"' EXIT

# put FILE OFFSET BYTES: bytes, as printf escapes, at an offset of a file
put() { printf "$3" | dd of="$1" bs=1 seek=$(($2)) conv=notrunc 2>/dev/null; }

# blank FILE: a space of zeros
blank() { head -c 4096 /dev/zero >"$1"; }

# listing: the program, on this standard input, ended where it does not end by itself
listing() { timeout 20 ./run listing; }

# same NAME FILE STATUS: the program ended by itself, with what FILE holds, to the byte
same() {
    if [ "$3" -eq 124 ]; then
        echo "FAILED $1: it did not end"
    elif [ "$3" -ne 0 ]; then
        echo "FAILED $1: it ended with status $3"
    elif cmp -s "$work/out" "$2"; then
        echo "ok $1"
    else
        echo "FAILED $1: it wrote $(head -c 200 "$work/out" | tr '\n' '|')"
    fi
}

# ended NAME STATUS: the program ended by itself, and not by a signal, except that of a pipe that nobody reads
ended() {
    if [ "$2" -eq 124 ]; then
        echo "FAILED $1: it did not end"
    elif [ "$2" -ge 128 ] && [ "$2" -ne 141 ]; then
        echo "FAILED $1: it ended with status $2"
    else
        echo "ok $1"
    fi
}

# A build first, so that no time limit below counts one.
if ! ./run listing <samples/document01.space >"$work/out" 2>"$work/errors"; then
    echo "FAILED listing: $(tail -n 1 "$work/errors")"
    exit 0
fi

# The samples, as samples/README.md describes them.
blank "$work/document01.space"
put "$work/document01.space" 0x06 '\x10'
put "$work/document01.space" 0x34 '\x40'
put "$work/document01.space" 0x040 '\x09\x00\x0c\x00\xc0\x1e\xc0\x00\x02\x00\x02\x03'
put "$work/document01.space" 0x100 '\x23\x00\x01\x00\xc0\x1e\x00\x01\x02\x00'

blank "$work/self_pointing.space"
put "$work/self_pointing.space" 0x100 '\x23\x00\x01\x10'

blank "$work/below_floor.space"
put "$work/below_floor.space" 0x06 '\x10'
put "$work/below_floor.space" 0x34 '\x3c'
put "$work/below_floor.space" 0x100 '\x23\x00\xc1\x0f'

blank "$work/looping.space"
put "$work/looping.space" 0x06 '\x10'
put "$work/looping.space" 0x34 '\x40'
put "$work/looping.space" 0x040 '\x05\x80'
put "$work/looping.space" 0x080 '\x09\xc0'
put "$work/looping.space" 0x0c0 '\x01\x40'
put "$work/looping.space" 0x100 '\x0b\x00\x01\x14'
put "$work/looping.space" 0x140 '\x0b\x00\x01\x18'
put "$work/looping.space" 0x180 '\x0b\x00\x01\x14'

blank "$work/letters.space"
put "$work/letters.space" 0x06 '\xff'
put "$work/letters.space" 0x34 '\xaf'
put "$work/letters.space" 0x0ac '\xde\x42'
put "$work/letters.space" 0x040 '\x0b\x03'
put "$work/letters.space" 0x100 '\xcd\xab\xff\xef'
put "$work/letters.space" 0xefc '\x00\x00\x3a\x00'

blank "$work/blanked.space"
put "$work/blanked.space" 0x100 '\x00\x00\x01\x14'
put "$work/blanked.space" 0x140 '\x23\x00\x01\x18\xc0\x1e\x00\x01\x02\x00'
put "$work/blanked.space" 0x180 '\x00\x00\x01\x1c'
put "$work/blanked.space" 0x1c0 '\x0d\x00\x01\x00'

# 48 and 960 headers, each pointing to the next word
{
    head -c 6 /dev/zero
    printf '\x10'
    head -c 45 /dev/zero
    printf '\x40'
    head -c 11 /dev/zero
    at=64
    while [ $at -lt 256 ]; do
        next=$((at + 4))
        [ $next -lt 256 ] || next=0
        printf "\\x$(printf %02x $((at / 4)))\\x$(printf %02x $next)\\x00\\x00"
        at=$((at + 4))
    done
    while [ $at -lt 4096 ]; do
        next=$((at + 4))
        [ $next -lt 4096 ] || next=0
        printf "\\x$(printf %02x $((at / 16)))\\x00\\x$(printf %02x $((next % 16 * 16 + at / 4 % 16)))\\x$(printf %02x $((next / 16)))"
        at=$((at + 4))
    done
} >"$work/full.space"

for made in "$work"/*.space; do
    name=$(basename "$made" .space)
    if cmp -s "$made" "samples/$name.space"; then echo "ok sample $name is as described"; else echo "FAILED sample $name: it is not as described"; fi
    listing <"samples/$name.space" >"$work/out"
    same "listing of $name" "samples/$name.text" $?
done

# Inputs of another size.
printf 'input 1 refused\n' >"$work/refused"
listing </dev/null >"$work/out"
same 'listing of 0 bytes' "$work/refused" $?
head -c 4095 samples/document01.space | listing >"$work/out"
same 'listing of 4,095 bytes' "$work/refused" $?
{ cat samples/document01.space && printf '\0'; } | listing >"$work/out"
same 'listing of 4,097 bytes' "$work/refused" $?
listing </dev/zero >"$work/out"
same 'listing of an endless input' "$work/refused" $?
listing <samples >"$work/out"
same 'listing of a directory' "$work/refused" $?
listing <&- >"$work/out"
same 'listing with standard input closed' "$work/refused" $?

# A space that comes in pieces, and one of zeros.
{ head -c 1000 samples/document01.space && sleep 1 && tail -c +1001 samples/document01.space; } | listing >"$work/out"
same 'listing of an input in pieces' samples/document01.text $?
printf 'compatible 0\nextended 0\nend\n' >"$work/empty"
head -c 4096 /dev/zero | listing >"$work/out"
same 'listing of zeros' "$work/empty" $?

# Standard output that takes nothing.
listing <samples/full.space 2>"$work/errors" | true
ended 'listing into a closed pipe' "${PIPESTATUS[0]}"
said="listing: standard output does not take it"
listing <samples/full.space >/dev/full 2>"$work/errors"
ended 'listing onto a full device' $?
if [ "$(cat "$work/errors")" = "$said" ]; then echo 'ok listing onto a full device says so'; else echo "FAILED listing onto a full device said $(head -c 200 "$work/errors")"; fi
listing <samples/full.space >&- 2>"$work/errors"
ended 'listing with standard output closed' $?
if [ "$(cat "$work/errors")" = "$said" ]; then echo 'ok listing with standard output closed says so'; else echo "FAILED listing with standard output closed said $(head -c 200 "$work/errors")"; fi

# shaped FILE: two parts, each refused with 11 or 12 and a place or with as many lines as its heading says, and the end
shaped() {
    awk '
        left > 0 && $0 ~ entry { left--; next }
        left > 0 { exit }
        part < 2 && $1 == name[part] && $2 ~ /^1[12]$/ && $3 ~ /^[0-9A-F][0-9A-F][048C]$/ && $4 == "refused" && NF == 4 { part++; next }
        part < 2 && $1 == name[part] && $2 ~ /^(0|[1-9][0-9]*)$/ && NF == 2 { left = $2; entry = line[part++]; next }
        part == 2 && $0 == "end" { part = 3; next }
        { part = 9 }
        BEGIN {
            part = 0; left = 0
            name[0] = "compatible"; name[1] = "extended"
            line[0] = "^[0-9A-F][0-9A-F][0-9A-F] [0-9A-F][0-9A-F]$"
            line[1] = "^[0-9A-F][0-9A-F][0-9A-F] [0-9A-F][0-9A-F][0-9A-F][0-9A-F] [0-9A-F]$"
        }
        END { exit !(part == 3 && left == 0) }' "$1"
}

# Noise: any listing, but a whole one. An input that shows a fault is kept.
for try in 1 2 3; do
    head -c 4096 /dev/urandom >"$work/noise"
    listing <"$work/noise" >"$work/out"
    if shaped "$work/out"; then
        echo "ok listing of noise $try"
    else
        cp "$work/noise" target/noise.space
        echo "FAILED listing of noise $try: the input is kept as target/noise.space"
    fi
done
