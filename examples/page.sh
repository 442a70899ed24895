#!/usr/bin/env bash
# Prints the page of a job file:  bash examples/page.sh examples/berth-public.job
# The first run proves and builds the program `page` (some minutes), and says on standard error which crates are done; later runs take
# what is built and say nothing. Where something is not proved, all that `rt run` wrote follows there, and the status is 1.
set -euo pipefail
job=${1:?usage: bash examples/page.sh JOB-FILE}
[ -r "$job" ] || { echo "page.sh: cannot read $job" >&2; exit 1; }
job=$(readlink -f "$job")
cd "$(dirname "$0")/../crates/page"
log=$(mktemp)
trap 'rm -f "$log"' EXIT

# of how many crates: `page` and those of its dependencies that stand here, as they are built
names=()
for name in $(sed -n 's/^page: *//p' ../../crates.txt); do
    [ ! -d "../$name" ] || names+=("$name")
done
names+=(page)

# progress: reads what `rt run` writes, keeps it, and prints a line for each crate that was proved now
progress() {
    local line crate='' i
    while IFS= read -r line; do
        printf '%s\n' "$line" >> "$log"
        [[ ! $line =~ ^crate\ ([a-z_]+): ]] || crate=${BASH_REMATCH[1]}
        [[ $line == logic=proved\ * ]] || continue
        for i in "${!names[@]}"; do
            [ "${names[i]}" != "$crate" ] || echo "page.sh: $((i + 1)) of ${#names[@]} crates: $crate proved" >&2
        done
    done
}

[ -x out/page ] || echo "page.sh: proving and building page, ${#names[@]} crates, which takes some minutes" >&2
rt run < /dev/null 2>&1 > /dev/null | progress || { cat "$log" >&2; exit 1; }
out/page < "$job"
