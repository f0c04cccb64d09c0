# docs/ENTRIES.md and the sources say the same of every public entry: it has a row; its contract has no `requires` and promises one thing, the
# definition that the row names, applied to what was lent and what came back; and the theorem that the row names speaks of two results that
# meet that definition. An entry is a `pub fn` of a crate's lib.rt, one that lib.rt hands on by `pub use`, or a `pub fn` of a type in any file, as
# Type::name. What a trait asks of a type (==, From) promises what the trait's laws say, and has no row.
work=$(mktemp -d) || exit 2
trap 'rm -rf "$work"' EXIT

# The type of an `impl` line, without its lifetimes and parameters.
type_of='function type_of(line) { sub(/^impl(<[^>]*>)? /, "", line); sub(/[< ].*/, "", line); return line "::" }'

entries() { # CRATE: a line 'NAME FILE' for each entry
    lib=crates/$1/src/lib.rt
    [ -f "$lib" ] || return
    awk -v c="$1" -v lib="$lib" "$type_of"' /^impl/{t=type_of($0)} /^}/{t=""}
        /^ *pub( extern "C")? fn / && (t != "" || FILENAME == lib) {sub(/^ *pub( extern "C")? fn /,""); sub(/[<(].*/,""); print c"::"t $0, FILENAME}' crates/"$1"/src/*.rt
    sed -nE 's/^pub use ([a-z_]+)::([a-z_]+);$/\1 \2/p; s/^pub use ([a-z_]+)::\{([a-z_, ]+)\};$/\1 \2/p' "$lib" | while read -r module names; do
        for name in ${names//,/ }; do echo "$1::$name crates/$1/src/$module.rt"; done
    done
}

# What another crate could call and this page would not see: a public module or trait, a handed-on glob or renaming.
unseen() { # CRATE
    lib=crates/$1/src/lib.rt
    [ -f "$lib" ] || return
    grep -nE '^pub (mod|use) ' "$lib" | grep -vE '^[0-9]+:pub use [a-z_]+::([a-z_]+|[A-Z_]+|\{[a-z_]+(, [a-z_]+)*\}|\{[A-Z_]+(, [A-Z_]+)*\});$' | sed "s|^|$lib: |"
    grep -nE '^pub trait ' crates/"$1"/src/*.rt /dev/null | sed 's/$/: a public trait/'
}

clauses() { # FILE NAME: from the signature of NAME, which may be Type::name, up to its body
    awk -v n="$2" "$type_of"' /^impl/{t=type_of($0)} /^}/{t=""} {line=$0; if (sub(/^ *pub( extern "C")? fn /,"",line) && sub(/[<(].*/,"",line) && t line == n) on=1}
        on && /^ *\{$/ {exit} on {print}' "$1"
}

buffers() { # MARK, clauses on standard input: the names of the parameters that are lent by & or &mut, of any type
    tr '\n' ' ' | sed 's/ requires .*//; s/ ensures .*//' | grep -oE "[a-z_]+: &('[a-z]+ )?$1|[(, ]&('[a-z]+ )?${1:-(mut )?}self\b" | sed -E 's/:.*//; s/.*self/self/'
}

# How many buffers a call can write: one for each parameter behind a &mut, or, where that is a struct of the crate which holds such, one for each of these.
written() { # CRATE TYPE::NAME, clauses on standard input
    tr '\n' ' ' | sed 's/ requires .*//; s/ ensures .*//' | grep -oE "&('[a-z]+ )?mut (self\b|[A-Za-z0-9_]+|\[)" | sed -E "s/.* //; s/^self\$/${2%%::*}/" | while read -r type; do
        cat crates/"$1"/src/*.rt | awk -v t="$type" '$0 ~ "^pub struct " t "[<; {]" {on = 1} /^}/{on = 0} on && /: &.*mut /{n++} END{print (n > 0 ? n : 1)}'
    done | awk '{n += $1} END{print n + 0}'
}

# The structs of the crate that a call is lent by &mut, and which hold buffers that can be written: a line 'PARAMETER FIELD ..' for each.
structs() { # CRATE TYPE::NAME, clauses on standard input
    tr '\n' ' ' | sed 's/ requires .*//; s/ ensures .*//' | grep -oE "[a-z_]+: &('[a-z]+ )?mut [A-Z][A-Za-z0-9]*|[(, ]&('[a-z]+ )?mut self\b" | sed -E "s/^.*mut self\$/self ${2%%::*}/; s/: &.*mut / /" | while read -r name type; do
        cat crates/"$1"/src/*.rt | awk -v n="$name" -v t="$type" '$0 ~ "^pub struct " t "[<; {]" {on = 1} /^}/{on = 0} on && /: &.*mut /{f = $2; sub(/:.*/, "", f); all = all " " f} END{if (all) print n all}'
    done
}

parameters() { # clauses on standard input: the name of every parameter
    tr '\n' ' ' | sed -E 's/ (requires|ensures)( [a-z_]+)? \{.*//; s/^[^(]*\(//; s/\) *(->.*)?$//' | grep -oE '(^|[ (,])(mut )?[a-z_]+:( |$)|(^|[ (,])(mut )?self\b' | sed -E 's/[(,: ]|mut //g'
}

gives() { tr '\n' ' ' | sed -E 's/ (requires|ensures)( [a-z_]+)? \{.*//' | grep -q -e '->'; } # clauses on standard input: there is a result

# says NAME WHEN: the promise has what is lent under this name, at this time: .now behind a &, .old and .new behind a &mut
says() { printf '%s\n' "$promise" | grep -qE "(^|[ (])«?$1»?\.$2([ )]|\$)"; }

# The promise is DEFINITION of something, or that the result, or what it tells, is that: nothing beside it, and nothing around it; and it
# speaks of every buffer as it was lent, and of every one that can be written as it is left. Of a struct that is lent two clauses may stand beside it, of
# just these shapes: that a field keeps the caller's own &mut (same_..), and that of what it says of a board nothing but the capture and the bytes differs
# from what was lent (holds..).
promises() { # DEFINITION CRATE TYPE::NAME, clauses on standard input
    cat >"$work/clauses"
    text=$(tr '\n' ' ' <"$work/clauses" | sed -E 's/  +/ /g
        s/ ensures same_[a-z_]+ \{ ([a-z_]+)\.new\.([a-z_]+)\.ghost_name ≡ \1\.old\.\2\.ghost_name \}//g
        s/ ensures holds[a-z_]* \{ ([a-z_]+) ([a-z_]+)\.new ≡ [a-z_]+ \(\1 \2\.old\) \2\.new\.capture \2\.new\.ordinary\.now \2\.new\.trusted\.now \}//g')
    case $text in *requires*) echo "it has a requires" && return ;; esac
    case $text in *'ensures*'* | *' ghost '*) echo "it has a clause of another kind" && return ;; esac
    [ "$(printf '%s' "$text" | grep -o 'ensures' | wc -l)" -eq 1 ] || { echo "it has $(printf '%s' "$text" | grep -o 'ensures' | wc -l) promises, and not one" && return; }
    promise=$(printf '%s' "$text" | sed -E 's/^.* ensures( [a-z_]+)? \{ //; s/ \} ?$//')
    plain=$(printf '%s' "$promise" | sed -E 's/^([A-Za-z_]+ )?result ≡ //')
    if [ "${plain%% *}" != "$1" ]; then
        echo "its promise is not $1: $promise"
    else
        case $promise in *⊎* | *→* | *×* | *∨* | *↔* | *¬*) echo "its promise is $1 and something else: $promise" ;; esac
    fi
    if gives <"$work/clauses" && ! printf '%s\n' "$promise" | grep -qE '(^|[ (])result([ ).;]|$)'; then
        echo "its promise does not speak of the result: $promise"
    fi
    for name in $(parameters <"$work/clauses"); do
        printf '%s\n' "$promise" | grep -qE "(^|[ («])$name([ )».]|\$)" || echo "its promise does not speak of $name"
    done
    structs "$2" "$3" <"$work/clauses" >"$work/structs"
    while read -r name fields; do
        printf '%s\n' "$promise" | grep -qE "(^|[ (])$name\.new\.capture([ ;)]|\$)" || echo "its promise does not speak of the capture of $name as it is left"
        for field in $fields; do
            printf '%s\n' "$promise" | grep -qE "(^|[ (])$name\.new\.$field\.now([ )]|\$)" || echo "its promise does not speak of $field of $name as it is left"
            grep -qF "{ $name.new.$field.ghost_name ≡ $name.old.$field.ghost_name }" "$work/clauses" || echo "it does not say that $name keeps the caller's $field"
        done
        grep -qE "^ *ensures holds[a-z_]* \{ (lent $name\.new ≡ after_call \(lent|lent_side $name\.new ≡ held_side \(lent_side) $name\.old\) $name\.new\.capture $name\.new\.ordinary\.now $name\.new\.trusted\.now \}\$" "$work/clauses" ||
            echo "it does not say that nothing else of $name changes"
    done <"$work/structs"
    written=" $(buffers 'mut ' <"$work/clauses" | tr '\n' ' ')"
    for name in $(buffers '' <"$work/clauses"); do
        case $written in
        *" $name "*)
            says "$name" old || echo "its promise does not speak of $name as it was lent"
            grep -q "^$name " "$work/structs" || says "$name" new || echo "its promise does not speak of $name as it is left"
            ;;
        *) says "$name" now || echo "its promise does not speak of $name as it was lent" ;;
        esac
    done
}

# The definition is brought in from the file that the row names.
brings() { # FILE CRATE/specs/FILE NAME
    grep -qE "^ghost use Rattle\.${2%%/*}\.specs\.${2##*/}\.\{([^}]*, )?$3(, [^}]*)?\};\$" "$1" || echo "$1 does not bring $3 in from $2"
}

# The theorem's statement: its type, and the definition of that type where it is a name of the same file.
statement() { # FILE NAME
    awk -v n="$2" '$1 == "pub" && $2 == n && $3 == ":" {on=1} on && ($1 == n || $1 == "unfolding") {exit} on {print}' "$1" >"$work/type"
    cat "$work/type"
    named=$(sed -nE 's/^pub [^ ]+ : ([A-Z][A-Za-z]*)$/\1/p' "$work/type")
    [ -z "$named" ] || awk -v n="$named" '$1 == n && $2 == "=" {on=1} on && /^$/ {exit} on {print}' "$1"
}

# It speaks of two results that meet the definition, and concludes so many equations: one for the result, and one for each buffer that can be written.
speaks() { # DEFINITION EQUATIONS, a statement on standard input
    tr '\n' ' ' | awk -v d="$1" -v wanted="$2" '{
        count = split($0, words, /[ (){},]+/)
        for (i = 1; i <= count; i++) if (words[i] == d) seen++
        last = $0
        while (match(last, / → /)) last = substr(last, RSTART + RLENGTH)
        count = split(last, parts, / × /)
        for (i = 1; i <= count; i++) {
            gsub(/[()]/, "", parts[i])
            if (split(parts[i], side, / ≡ /) == 2) { gsub(/ /, "", side[1]); gsub(/ /, "", side[2]); if (side[1] != side[2]) equal++ }
        }
        if (seen < 2) print "it does not speak of two results that meet " d
        else if (equal < wanted) print "it concludes " equal + 0 " equations, and not " wanted
        found = 1
    } END { if (!found) print "it is not there" }'
}

check() { # [CRATE]: what is wrong with all crates, or with this one, a line each; and last 'N entries'
    local count=0 found='' only=$* crate entry file row why wanted
    for crate in ${only:-$(sed 's/#.*//' crates.txt | sed -n 's/^\([a-z0-9_]*\)\( staticlib\)\?:.*/\1/p')}; do
        while read -r entry file; do
            [ -n "$entry" ] || continue
            count=$((count + 1))
            found="$found $entry"
            row=$(sed -nE "s/^\| \`$entry\` \| \`([^\`]+)\` \| \`([^\`]+)\` \|\$/\1|\2/p" docs/ENTRIES.md)
            if [ "$(printf '%s\n' "$row" | grep -c .)" -ne 1 ]; then
                echo "$entry: docs/ENTRIES.md has no row for it, or two"
                continue
            fi
            promise=${row%%|*} theorem=${row#*|}
            why=$(clauses "$file" "${entry#*::}" | promises "${promise#*: }" "$crate" "${entry#*::}")
            [ -z "$why" ] || echo "$entry: $why"
            why=$(brings "$file" "${promise%%:*}" "${promise#*: }")
            [ -z "$why" ] || echo "$entry: $why"
            wanted=$(clauses "$file" "${entry#*::}" | written "$crate" "${entry#*::}")
            clauses "$file" "${entry#*::}" | gives && wanted=$((wanted + 1))
            [ "$wanted" -gt 0 ] || echo "$entry: it gives nothing and can write nothing, so it promises nothing"
            why=$(statement "crates/${theorem%%:*}.antt" "${theorem#*: }" | speaks "${promise#*: }" "$wanted")
            [ -z "$why" ] || echo "$entry: $theorem: $why"
        done < <(entries "$crate")
        unseen "$crate"
    done
    for entry in $(sed -nE 's/^\| `([A-Za-z_:]+)` \|.*/\1/p' docs/ENTRIES.md); do
        [ -z "$only" ] || [ "$only" = "${entry%%::*}" ] || continue
        case "$found " in *" $entry "*) ;; *) echo "$entry: docs/ENTRIES.md has a row for it, and no crate has it" ;; esac
    done
    echo "$count entries"
}

check >"$work/found"
count=$(sed -n '$s/ entries$//p' "$work/found")
if [ "$(wc -l <"$work/found")" -eq 1 ] && [ "${count:-0}" -gt 30 ]; then
    echo "ok each of the $count public entries promises what its row says, asks nothing, and its second result is the same"
else
    sed '$d; s/^/FAILED entry /' "$work/found"
    [ "${count:-0}" -gt 30 ] || echo "FAILED entries: only ${count:-none} were found"
fi

# It would notice: each line below is a change to a copy, and what must be said of the crate that the words begin with.
noticed() { # NAME WORDS FILE SED: the copy with one file edited is told about in these words
    local crate=${2#crates/}
    crate=${crate%%[:/]*}
    rm -rf "$work/copy"
    mkdir -p "$work/copy/docs"
    cp crates.txt "$work/copy/"
    cp docs/ENTRIES.md "$work/copy/docs/"
    tar -c --exclude=out crates | tar -x -C "$work/copy"
    sed -i -E "$4" "$work/copy/$3"
    if cmp -s "$3" "$work/copy/$3"; then echo "FAILED entries, $1: the edit changes nothing"; return; fi
    if (cd "$work/copy" && check "$crate") | grep -qF "$2"; then echo "ok entries, $1 is noticed"; else echo "FAILED entries, $1 is not noticed"; fi
}
noticed 'a weakened promise' 'board::Board::serve: its promise is not Serves' crates/board/src/serving.rt \
    's/ensures serves \{ Serves .* \}/ensures serves { IfOk result (λ length. length ≤ 4096) }/'
noticed 'a struct whose rules may change' 'board::Board::serve: it does not say that nothing else of self changes' crates/board/src/serving.rt '/ensures holds/d'
noticed 'a struct of which nothing is said to stay' 'pair::serve: it does not say that primary keeps the caller' crates/pair/src/serving.rt '/ensures (holds|same)/d'
noticed 'a struct that holds something else' 'pair::serve: it does not say that nothing else of primary changes' crates/pair/src/serving.rt 's/≡ held_side \(lent_side primary\.old\)/≡ other_side (lent_side primary.old)/'
noticed 'a space that the promise leaves out' 'board::Board::serve: its promise does not speak of trusted of self as it is left' crates/board/src/serving.rt \
    '/ensures serves/s/self\.new\.trusted\.now/self.old.trusted.now/'
noticed 'a capture that the promise leaves out' 'pair::serve: its promise does not speak of the capture of alternate as it is left' crates/pair/src/serving.rt \
    '/ensures serves/s/alternate\.new\.capture/alternate.old.capture/'
noticed 'a promise about one field of a survey' 'ports::Survey::note: its promise does not speak of self as it is left' crates/ports/src/noting.rt 's/port self\.new \}/port self.new.count }/'
noticed 'a promise about one field of what is looked at' 'board::Look::is_badly_described: its promise does not speak of self as it was lent' crates/board/src/describing.rt \
    's/badly_described \(looked_at self\.now\) \}/badly_described (looked_at self.now.description) }/'
noticed 'a promise with a way out' 'lists::walk: its promise is Walks and something else' crates/lists/src/lib.rt \
    's/ensures \{ Walks (.*) \}/ensures { Walks \1 ⊎ Unit }/'
noticed 'a way out on a second line' 'registers::show: its promise is shown and something else' crates/registers/src/lib.rt \
    's/(ensures \{ result ≡ shown .*) \}/\1\n        ⊎ Unit }/'
noticed 'a buffer that the promise leaves out' 'lists::walk: its promise does not speak of room as it was lent' crates/lists/src/lib.rt \
    's/room\.old/room.new/'
noticed 'a second promise' 'words::four: it has 2 promises' crates/words/src/lib.rt \
    's/^(    ensures .*four_or_zero.*)$/\1\n\1/'
noticed 'a definition of that name from elsewhere' 'board::Board::serve: crates/board/src/serving.rt does not bring Serves in' crates/board/src/serving.rt \
    's/board\.specs\.Promise/board.specs.Easier/'
noticed 'a requires' 'records::dvsec: it has a requires' crates/records/src/lib.rt \
    's/^(    ensures .*dvsec_says.*)$/    requires { at < 4096 }\n\1/'
noticed 'a theorem about something else' 'board::Board::serve: board/proofs/Unique: reset_unique: it does not speak' docs/ENTRIES.md \
    's/board\/proofs\/Unique: serve_unique/board\/proofs\/Unique: reset_unique/'
noticed 'a theorem that concludes nothing' 'words::four: words/proofs/Unique: four_unique: it concludes 0 equations' crates/words/proofs/Unique.antt \
    '/^pub four_unique/,/^four_unique/s/→ r ≡ q$/→ r ≡ r/'
noticed 'a theorem that leaves a buffer out' 'board::Board::serve: board/proofs/Unique: serve_unique: it concludes 3 equations' crates/board/proofs/Unique.antt \
    "s/ × \(after ≡ after'\)//"
noticed 'a promise that says nothing of the result' 'records::dvsec: its promise is not dvsec_says' crates/records/src/lib.rt \
    's/tells_dvsec result ≡ dvsec_says space\.now at \}/tells_dvsec other ≡ dvsec_says space.now at }/'
noticed 'a promise that is true of anything' 'records::dvsec: its promise does not speak of the result' crates/records/src/lib.rt \
    's/tells_dvsec result ≡ dvsec_says (space\.now at) \}/dvsec_says \1 ≡ dvsec_says \1 }/'
noticed 'a promise about one offset' 'records::dvsec: its promise does not speak of at' crates/records/src/lib.rt \
    's/dvsec_says space\.now at \}/dvsec_says space.now 0x100 }/'
noticed 'a promise about one list' 'lists::walk: its promise does not speak of kind' crates/lists/src/lib.rt \
    's/\{ Walks kind /{ Walks Compatible /'
noticed 'a theorem about nothing of a function without a result' 'trials::trial_merge: trials/proofs/Unique: trial_unique: it concludes 0 equations' \
    crates/trials/proofs/Unique.antt '/^pub trial_unique/,/^trial_unique/s/→ after ≡ other$/→ after ≡ after/'
noticed 'a number that is lent and left out' 'trials::trial_merge: its promise does not speak of bytes as it is left' crates/trials/src/lib.rt \
    's/bytes: &mut \[u8; 4\]/bytes: \&mut u32/; s/bytes\.new/bytes.old/'
noticed 'a function that can change nothing' 'trials::trial_merge: it gives nothing and can write nothing' crates/trials/src/lib.rt \
    's/bytes: &mut \[u8; 4\]/bytes: \&[u8; 4]/'
noticed 'a row without an entry' 'words::five: docs/ENTRIES.md has a row for it, and no crate has it' docs/ENTRIES.md 's/^(\| `words::)four/\1five/'
noticed 'a handed-on glob' 'crates/pair/src/lib.rt: ' crates/pair/src/lib.rt 's/^pub use serving::\{.*\};/pub use serving::*;/'
noticed 'a renaming in a group' 'crates/pair/src/lib.rt: ' crates/pair/src/lib.rt 's/^pub use serving::\{reset, /pub use serving::{reset as restart, /'
noticed 'a public module' 'crates/packet/src/lib.rt: ' crates/packet/src/lib.rt 's/^mod fields;/pub mod fields;/'
noticed 'an entry without a row' 'board::reset: docs/ENTRIES.md has no row' docs/ENTRIES.md '/^\| `board::reset`/d'
exit 0
