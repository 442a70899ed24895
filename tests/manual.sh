#!/usr/bin/env bash
# docs/MANUAL.md is held to what stands beside it. Needs the programs page, assemble and listing in
# their out/ (rt ci, or rt run in crates/page and so on).
# - Its examples: a block ```job has a job in hexadecimal bytes, the block ```page after it what `page` must print. After a block ```text
#   stands its ```sheet, the bytes that `assemble` must write, and then the ```listing that `listing` must make of them; or ```refused, what
#   `assemble` must say. What follows a # in bytes says its line's bytes in words: items of a job and commands of a sheet between commas,
#   the number of the first command and a colon before them. The codes and widths that the words are spelled with come from the manual's
#   own table of commands.
# - That table is the definition's in crates/program, its names those of include/luvrodan.h. Lines of text are read as their table says.
# - The bytes of its standard rules are those of crates/policy, the length of their handler that of crates/report; its limits, its functions
#   and the numbers of its stops, refusals and kinds those of include/luvrodan.h, the limits of sheets and texts those of crates/assembly
#   too.
set -u
cd "$(dirname "$0")/.." || exit 2
. tests/page/bytes.sh
manual=docs/MANUAL.md
header=include/luvrodan.h
for program in page assemble listing; do
    [ -x "crates/$program/out/$program" ] || { echo "crates/$program/out/$program is missing: rt run in crates/$program" >&2; exit 1; }
done
scratch=$(mktemp -d)
trap 'rm -rf "$scratch"' EXIT
failed=0
wrong() { echo "$manual: $*"; failed=$((failed + 1)); }

# the table of commands: code and operands' widths by name
declare -A code widths
told=
names=
while IFS='|' read -r _ c n w _; do
    n=${n// /}
    code[$n]=${c//[\` ]/}
    widths[$n]=$(xargs <<< "${w//[^0-9 ]/}")
    told+="$(xargs <<< "${code[$n]} $n ${widths[$n]}")"$'\n'
    names+=", $n"
done < <(grep -E '^\| `[01][0-9a-f]` \| [A-Z][A-Za-z]+ \| ([0-9] bytes?(, [0-9] bytes?)* )?\|' "$manual")
defined=$(sed -nE 's/^description [a-z_]+ = row 0x([0-9a-f]+) "([A-Za-z]+)" (bare|Page|Counts|\(Signed [0-9]+\)) .*/\1 \2 \3/p' \
    crates/program/specs/Command.antt | sed -E 's/ bare$//; s/ Page$/ 1/; s/ Counts$/ 1 1/; s/ \(Signed ([0-9]+)\)$/ \1/')
[ -n "$defined" ] && [ "${told%$'\n'}" = "$defined" ] || wrong "the table of commands is not that of crates/program/specs/Command.antt"
grep -qF "(${names#, })" "$header" || wrong "the names of the commands are not those of $header"

# little NUMBER WIDTH: its bytes, the lowest first
little() {
    local hex i
    printf -v hex '%016x' "$1"
    for ((i = 0; i < $2; i++)); do printf ' %s' "${hex:14-2*i:2}"; done
}

# spell WORDS: the bytes of an item of a job or of a command
spell() {
    local name=$1 width
    case $name in
    cell) printf ' 40'; little "$2" 8; little "$4" 4 ;;
    allowance) printf ' 41'; little "$2" 4 ;;
    reader) printf ' 42'; little "$2" 4 ;;
    sheet) printf ' 43' ;;
    *)
        printf ' %s' "${code[$name]-?}"
        for width in ${widths[$name]-}; do
            [ $# -gt 1 ] || break
            shift
            little "$1" "$width"
        done
        [ $# -eq 1 ] || printf ' ?'
        ;;
    esac
}

# words JOB: each line's words spell its bytes
words() {
    local line said item spelled place=0 at
    while IFS= read -r line; do
        [[ $line == *'#'* ]] || continue
        said=${line#*\# }
        if [[ $said =~ ^([0-9]+):\ (.*)$ ]]; then
            at=${BASH_REMATCH[1]}
            said=${BASH_REMATCH[2]}
            [ "$at" -eq "$place" ] || wrong "command $place is called $at: $line"
        fi
        spelled=
        while IFS= read -r item; do
            # shellcheck disable=SC2086
            spelled+=$(spell $item)
            [ -z "${code[${item%% *}]-}" ] || place=$((place + 1))
        done <<< "${said//, /$'\n'}"
        [ "$(xargs <<< "${line%%#*}")" = "${spelled# }" ] || wrong "these words are not these bytes, but$spelled: $line"
    done < "$1"
}

# held PROGRAM INPUT OUTPUT ERROR: the program writes these for the input
held() {
    if ! "crates/$1/out/$1" < "$2" > "$scratch/got" 2> "$scratch/said"; then
        wrong "$1 ended with a failure on ${2##*/}"
    elif ! cmp -s "$3" "$scratch/got" || ! cmp -s "$4" "$scratch/said"; then
        wrong "$1 writes something else for ${2##*/}:"
        cat "$2"
        diff -a "$3" "$scratch/got"
        diff "$4" "$scratch/said"
    fi
}

# the examples, each with what answers it: N.job and N.page, N.text and N.sheet, this and N.listing, N.text and N.refused
awk -v to="$scratch/" '
    function fault(text) { print FILENAME ":" FNR ": " text; bad = 1 }
    BEGIN {
        count = split("job page text sheet text refused sheet listing", kinds, " ")
        for (i = 1; i < count; i += 2) { owes[kinds[i]]; answers[kinds[i + 1]]; follows[kinds[i], kinds[i + 1]] }
    }
    kind != "" && $0 == "```" { close(file); kind = ""; next }
    kind != "" { if (file != "") print > file; next }
    /^```/ {
        kind = substr($0, 4)
        if (owed != "" && !((owed, kind) in follows)) fault("the " owed " before this block has no answer")
        if (owed == "" && kind in answers) fault("a " kind " that answers nothing")
        if (kind in owes && !(kind in answers)) n++
        owed = kind in owes ? kind : ""
        file = kind in owes || kind in answers ? to n "." kind : ""
        if (file != "") printf "" > file
        if (kind == "") kind = "none"
    }
    END {
        if (kind != "") fault("a block that does not end")
        if (owed != "") fault("the last " owed " has no answer")
        if (!n) fault("no example")
        exit bad
    }' "$manual" || failed=$((failed + 1))

# hex BLOCK: its bytes
hex() {
    sed 's/#.*//; s/^/job: /' "$1" > "$scratch/case"
    bytes "$scratch/case" > "$scratch/bytes"
}

examples=0
shopt -s nullglob
for answer in "$scratch"/*.{page,sheet,listing,refused}; do
    examples=$((examples + 1))
    of=${answer%.*}
    case $answer in
    *.page)
        words "$of.job"
        hex "$of.job"
        held page "$scratch/bytes" "$answer" /dev/null
        ;;
    *.sheet)
        words "$answer"
        hex "$answer"
        held assemble "$of.text" "$scratch/bytes" /dev/null
        ;;
    *.listing)
        hex "$of.sheet"
        held listing "$scratch/bytes" "$answer" /dev/null
        ;;
    *.refused) held assemble "$of.text" /dev/null "$answer" ;;
    esac
done

# the table of lines of text, of which each is read as another, or refused as a text's first
lines=0
while IFS='|' read -r _ line answer _; do
    lines=$((lines + 1))
    echo "${line:2:-2}" > "$scratch/line"
    if [[ $answer == ' refused '* ]]; then
        echo "${answer:1:-1} 1" > "$scratch/answer"
        held assemble "$scratch/line" /dev/null "$scratch/answer"
    else
        echo "${answer:2:-2}" > "$scratch/answer"
        crates/assemble/out/assemble < "$scratch/line" > "$scratch/bytes"
        held listing "$scratch/bytes" "$scratch/answer" /dev/null
    fi
done < <(sed -n '/^| line | is read as |/,/^$/{//d; /^|---/d; p;}' "$manual")
[ "$lines" -gt 0 ] || wrong "no lines of text"

# the standard rules
rules=$(sed -nE 's/^\| [A-Z][A-Za-z, ]+ \|.*\| `(1[0-9 ]*)` \|$/\1/p' "$manual" | xargs)
table=$(sed -nE '/^ *0x/s/0x([0-9a-f]+),/\1/gp' crates/policy/src/standard_table.rt | xargs)
[ -n "$table" ] && [ "$rules" = "$table" ] || wrong "the bytes of the standard rules are not the standard table: $rules"
length=$(wc -w <<< "$table")
grep -qF "The standard table has $length bytes" "$manual" || wrong "the standard table has $length bytes"
kernel=$(sed -nE 's/^handler_space = zeros \(2 \* ([0-9]+)\)$/\1/p' crates/report/specs/Page.antt)
grep -qF "standard table's handler has ${kernel:-?} commands" "$manual" || wrong "the standard table's handler has $kernel commands"

# same WHAT IN-THE-MANUAL IN-THE-HEADER: the same words, whatever their order, and how often they stand there
same() {
    local told named
    told=$(sed -nE "$2" "$manual" | sort -u | xargs)
    named=$(sed -nE "$3" "$header" | sort -u | xargs)
    [ -n "$named" ] && [ "$told" = "$named" ] || wrong "the $1 are not those of $header: $told"
}
same stops '/^## [0-9]+\. Stops$/,/^## /s/^\| ([0-9]+) \|.*/\1/p' 's/^ *LUVRODAN_STOP_[A-Z_]+ = ([0-9]+).*/\1/p'
same refusals '/^## [0-9]+\. Refusals$/,/^## /s/^\| ([0-9]+) \|.*/\1/p' 's/^ *LUVRODAN_REFUSED_[A-Z_]+ = ([0-9]+).*/\1/p'
same functions 's/^\| `(luvrodan_[a-z_]+)` \|.*/\1/p' 's/^[a-z0-9_]+ (luvrodan_[a-z_]+)\(.*/\1/p'

# the kinds of entries and of lines
kinds=0
while read -r value name; do
    kinds=$((kinds + 1))
    grep -Eq "^ *$name = $value(,| |\$)" "$header" || wrong "$name is not $value in $header"
done < <(grep -oE '[0-9]+ \(`LUVRODAN_[A-Z_]+`' "$manual" | tr -d '(`')
[ "$kinds" -gt 0 ] || wrong "no kinds"

# the limits, and what else is said of texts
sed -nE 's/^\|.*\| ([0-9,]+) \| `(LUVRODAN_[A-Z_]+)` \|$/\2 \1/p; s/^\|.*`(LUVRODAN_[A-Z_]+)` \(([0-9,]+)\).*/\1 \2/p' "$manual" |
    tr -d , > "$scratch/limits"
limits=0
while read -r name value; do
    limits=$((limits + 1))
    grep -Eq "^#define $name $value( |\$)" "$header" || wrong "$name is not $value in $header"
done < "$scratch/limits"
[ "$limits" -gt 0 ] || wrong "no limits"
commands=$(sed -nE 's/^command_limit = ([0-9]+)$/\1/p' crates/program/specs/Decode.antt)
while read -r name limit; do
    each=$(sed -nE "s/^$limit = ([0-9]+) \* command_limit\$/\1/p" crates/assembly/specs/Claim.antt)
    grep -qx "$name $((each * commands))" "$scratch/limits" || wrong "$name is not $limit of crates/assembly/specs/Claim.antt"
done <<< $'LUVRODAN_SHEET_LIMIT sheet_limit\nLUVRODAN_TEXT_LIMIT listing_limit'
taken=$(sed -nE 's/^\| .*`assemble` takes \| ([0-9,]+) \|.*/\1/p' "$manual" | tr -d ,)
grep -qF "the text is longer than $taken bytes" crates/assemble/src/main.rt || wrong "assemble does not take $taken bytes"
short=$(sed -nE 's/^\| ([0-9]+) \| a buffer that is too short.* \| ([0-9]+) \|.*/\1 \2/p' "$manual")
grep -qF "(refusal $short)" crates/assembly/specs/Assembly.antt || wrong "a buffer that is too short is not refused by $short"

echo "manual: $examples examples, $lines lines of text, $limits limits, $failed faults"
[ "$failed" -eq 0 ]
