#!/usr/bin/env bash
# Makes a job of a sheet in text, the reader's set and the cells, from cell 0 on, each as NUMBER:LABEL:
#     bash examples/job.sh examples/berth.txt 1 412:0 -985:1 1180:2 > berth.job
# Of a text that is refused standard error has the file's name and the line; nothing is written, and the status is 1. Where the program
# `assemble` is missing it is proved and built first, which takes some minutes; standard error tells.
set -euo pipefail
fail() { echo "job.sh: $*" >&2; exit 1; }
[ $# -ge 2 ] || fail 'usage: bash examples/job.sh TEXT-FILE READER [NUMBER:LABEL]...'
name=$1
reader=$2
shift 2
[ -r "$name" ] && [ ! -d "$name" ] || fail "cannot read $name"
exec 3< "$name"
cd "$(dirname "$0")/.."
scratch=$(mktemp -d)
trap 'rm -rf "$scratch"' EXIT

# is_number WORD, is_label WORD: a number of 64 bits, a set of 32 owners, in decimal and without leading zeros
is_number() { [ "$(printf %d "$1" 2> /dev/null)" = "$1" ]; }
is_label() { is_number "$1" && [ "$1" -ge 0 ] && [ "$1" -le 4294967295 ]; }

# field NUMBER WIDTH: so many bytes of it, the lowest first, as escapes
field() {
    local hex i
    printf -v hex %016x "$1"
    for ((i = 0; i < $2; i++)); do printf '\\x%s' "${hex:14-2*i:2}"; done
}

# the job as far as the sheet: 40 and a cell, 42 and the reader's set, 43
job=
for cell; do
    [[ $cell == *:* ]] && is_number "${cell%%:*}" && is_label "${cell#*:}" || fail "$cell: not a number and a label"
    job+="\x40$(field "${cell%%:*}" 8)$(field "${cell#*:}" 4)"
done
is_label "$reader" || fail "$reader: not a set of owners"
job+="\x42$(field "$reader" 4)\x43"

if [ ! -x crates/assemble/out/assemble ]; then
    echo "job.sh: proving and building assemble, which takes some minutes" >&2
    (cd crates/assemble && rt run < /dev/null) >&2 || exit 1
fi

# `assemble` has nothing to say of a text that it reads
status=0
crates/assemble/out/assemble <&3 > "$scratch/sheet" 2> "$scratch/said" || status=$?
if read -r what number line < "$scratch/said"; then
    [ "$what" = refused ] || fail "$name: $(cat "$scratch/said")"
    case $number in
    1) why='one line too many' ;;
    11) why="an operand outside its command's range" ;;
    *) why='not a command with its operands' ;;
    esac
    fail "$name, line $line: refused $number, $why"
fi
[ "$status" -eq 0 ] || fail "assemble ended with status $status"

printf %b "$job"
cat "$scratch/sheet"
