#!/usr/bin/env bash
# examples/berth.txt is the sheet that the README shows, examples/job.sh makes the job files of it, and these give the pages that the README
# shows. examples/berth-closed.txt is the same but for its last page; examples/closed.rs, which runs it, is tested by engines.sh. Of a text
# that is refused examples/job.sh writes nothing, and names file and line.
set -Eeuo pipefail
cd "$(dirname "$0")/.."
for program in page assemble; do
    [ -x "crates/$program/out/$program" ] || { echo "crates/$program/out/$program is missing: rt run in crates/$program" >&2; exit 1; }
done
scratch=$(mktemp -d)
trap 'rm -rf "$scratch"' EXIT
trap 'echo "$0: line $LINENO does not hold" >&2' ERR
cells=(412:0 -985:1 1180:2)

# berth NAME READER PAGE: the job file of that name, and its page with printf's escapes
berth() {
    bash examples/job.sh examples/berth.txt "$2" "${cells[@]}" | cmp - "examples/berth-$1.job"
    [ "$(crates/page/out/page < "examples/berth-$1.job")" = "$(printf %b "$3")" ]
}
berth public 0 '0 412 00000000\n0 end 00000000'
berth terminal 1 '0 412 00000000\n1 1397 00000001\n0 end 00000000'
berth master 3 '0 412 00000000\n1 1397 00000001\n0 217 00000003\n0 end 00000000'

# `page` closes no page, and prints all that the sheet writes
sed '$s/.*/OutputTo 1/' examples/berth.txt | cmp - examples/berth-closed.txt
bash examples/job.sh examples/berth-closed.txt 3 "${cells[@]}" > "$scratch/closed.job"
[ "$(crates/page/out/page < "$scratch/closed.job")" = "$(printf %b '0 412 00000000\n1 1397 00000001\n1 217 00000003\n0 end 00000000')" ]

# the blocks of the README
sed -n 's/^    //p' README.md > "$scratch/blocks"
[[ $(< "$scratch/blocks") == *$'\n'"$(< examples/berth.txt)"$'\n'* ]]
grep -qxF "bash examples/job.sh examples/berth.txt 1 ${cells[*]} > berth.job" "$scratch/blocks"

sed 's/Sub/sub/' examples/berth.txt > "$scratch/berth.txt"
status=0
bash examples/job.sh "$scratch/berth.txt" 0 "${cells[@]}" > "$scratch/job" 2> "$scratch/said" || status=$?
[ "$status" -eq 1 ]
[ ! -s "$scratch/job" ]
[[ $(< "$scratch/said") == *"$scratch/berth.txt, line 5: refused 10,"* ]]
echo "examples: 3 of 3 job files, 4 of 4 pages"
