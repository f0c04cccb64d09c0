# ./from-lspci: a dump of lspci becomes the device's bytes, and the listing of these is as samples/ says. A dump with anything wrong in it ends
# with status 1 and words, and nothing is written.
work=$(mktemp -d) || exit 2
trap 'rm -rf "$work"' EXIT
dump=samples/network_card.lspci

# reads NAME FILE: the bytes are those of the dump
reads() {
    ./from-lspci <"$2" >"$work/out" 2>"$work/log"
    local status=$?
    if [ "$status" -eq 0 ] && [ ! -s "$work/log" ] && cmp -s "$work/out" "$work/bytes"; then
        echo "ok from-lspci reads $1"
    else
        echo "FAILED from-lspci reads $1: status $status, $(wc -c <"$work/out") bytes, $(head -n 1 "$work/log")"
    fi
}

# refuses NAME FILE TEXT: it is told so, with these words, and nothing is written
refuses() {
    ./from-lspci <"$2" >"$work/out" 2>"$work/log"
    local status=$?
    if [ "$status" -eq 1 ] && [ ! -s "$work/out" ] && grep -qF -- "$3" "$work/log" && [ "$(wc -l <"$work/log")" -eq 1 ]; then
        echo "ok from-lspci refuses $1"
    else
        echo "FAILED from-lspci refuses $1: status $status, $(wc -c <"$work/out") bytes, $(head -n 1 "$work/log")"
    fi
}

# edited SCRIPT: the dump, changed by sed, in a file
edited() { sed "$1" $dump >"$work/dump" && echo "$work/dump"; }

# The bytes of the dump, by another way: its columns as escapes of printf.
printf "$(sed -n 's/^[0-9a-f]*: //p' $dump | tr '\n' ' ' | sed 's/\(..\) /\\x\1/g')" >"$work/bytes"
if [ "$(wc -c <"$work/bytes")" -eq 4096 ]; then echo "ok $dump has 4,096 bytes"; else echo "FAILED $dump: it has not 4,096 bytes"; fi

reads 'a dump as lspci prints it' $dump
reads 'a dump with the words of -v' "$(edited '1a\	Subsystem: Intel Corporation\n        Control: I/O+\n\tCapabilities: [40] Power Management')"
reads 'a dump with a domain' "$(edited '1s/^/0000:/')"
reads 'a dump without its heading' "$(edited 1d)"
reads 'a dump in capitals' "$(edited '2,$y/abcdef/ABCDEF/')"
reads 'a dump with the line ends of another system' "$(edited 's/$/\r/')"
head -c -2 $dump >"$work/dump"
reads 'a dump without its last line end' "$work/dump"

: >"$work/dump"
refuses 'nothing' "$work/dump" 'the dump has 0 bytes, and not 4,096'
refuses 'a heading and nothing else' "$(edited '2,$d')" 'the dump has 0 bytes'
refuses 'the 64 bytes that anybody may see' "$(edited '6,$d')" 'the dump has 64 bytes'
refuses 'the 256 bytes of -xxx' "$(edited '18,$d')" 'the dump has 256 bytes'
refuses 'a dump without its last line' "$(edited 257d)" 'the dump has 4080 bytes'
refuses 'a dump without a line' "$(edited 100d)" 'line 100: 630: stands where 620: was to come'
refuses 'a line that comes twice' "$(edited 100p)" 'line 101: 620: stands where 630: was to come'
refuses 'two lines in the wrong order' "$(edited '100{h;d;};101G')" 'line 100: 630: stands where 620: was to come'
refuses 'a line too many' "$(edited '257a1000: 00 00 00 00 00 00 00 00 00 00 00 00 00 00 00 00')" 'line 258: this is no line of a dump'
refuses 'the lines again' "$(edited '257a00: 00 00 00 00 00 00 00 00 00 00 00 00 00 00 00 00')" 'line 258: there is more after ff0'
refuses 'an offset in other digits' "$(edited '3s/^10:/010:/')" 'line 3: 010: stands where 10: was to come'
refuses 'a byte too few' "$(edited '50s/ 00$//')" 'line 50: it has 15 bytes'
refuses 'a byte too many' "$(edited '50s/$/ 00/')" 'line 50: it has 17 bytes'
refuses 'a digit too few' "$(edited '50s/0$//')" 'line 50: this is no line of a dump'
refuses 'a digit that is none' "$(edited '50s/0$/g/')" 'line 50: this is no line of a dump'
refuses 'a byte in three digits' "$(edited '50s/$/0/')" 'line 50: this is no line of a dump'
refuses 'two blanks in a line' "$(edited '50s/ /  /2')" 'line 50: this is no line of a dump'
refuses 'a tab in a line' "$(edited '50s/ /\t/2')" 'line 50: this is no line of a dump'
refuses 'a blank at the end of a line' "$(edited '50s/$/ /')" 'line 50: this is no line of a dump'
refuses 'a line of the dump that is indented' "$(edited '50s/^/ /')" 'line 51: 310: stands where 300: was to come'
refuses 'words in between' "$(edited '50iWARNING: Cannot show hex-dump of the config space')" 'line 50: this is no line of a dump'
cat $dump $dump >"$work/dump"
refuses 'two devices' "$work/dump" 'line 259: a second device'
sed 1d $dump | cat - $dump >"$work/dump"
refuses 'two devices, the first without its heading' "$work/dump" 'line 258: a second device'
refuses 'a heading inside the dump' "$(edited '100i04:00.0 Ethernet controller: Intel')" 'line 100: a new device begins inside the dump'
refuses 'a heading inside a dump that has none before it' "$(edited '1{h;d;};100{p;x;}')" 'line 100: a new device begins inside the dump'
refuses 'a heading behind a dump that has none before it' "$(edited '1{h;d;};257G')" 'line 257: a second device'
refuses 'two headings' "$(edited 1p)" 'line 2: a second device'
refuses 'a space as bytes' samples/document01.space 'bytes 00h'
{ sed '$d' $dump && printf 'ff0: 00 00 00 00 00 00 00 00 00 00 00 00 00 00 00 00\000\n'; } >"$work/dump"
refuses 'a byte 00h in a line' "$work/dump" 'bytes 00h'
head -c 6000 $dump >"$work/dump"
refuses 'a dump that was cut' "$work/dump" 'line 113: this is no line of a dump'
refuses 'bytes without an end' /dev/zero 'bytes 00h'
refuses 'lines without an end' <(yes '') 'more than 1,000,000 bytes'

./from-lspci $dump </dev/null >"$work/out" 2>"$work/log"
if [ $? -eq 2 ] && [ ! -s "$work/out" ] && [ -s "$work/log" ]; then
    echo 'ok from-lspci tells that it takes no words'
else
    echo 'FAILED from-lspci tells that it takes no words'
fi

if ./from-lspci <$dump | ./run listing 2>"$work/log" | cmp -s - samples/network_card.text; then
    echo "ok the listing of $dump is as samples/ says"
else
    echo "FAILED the listing of $dump is not as samples/ says: $(tail -n 1 "$work/log")"
fi
