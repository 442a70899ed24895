#!/usr/bin/env bash
# The program `page` on the cases of tests/page/. A case is a file of three parts: lines that begin with # say what it shows; lines
# that begin with 'job:' hold the job in hexadecimal bytes, where N*( .. ) repeats what stands between N times; what follows the line
# 'page:' is what `page` must print, where a line N*( .. ) stands for N lines of what stands between.
# Needs crates/page/out/page (rt ci, or rt run in crates/page). RUNNER may hold a command to run it under:
#     RUNNER='valgrind -q --error-exitcode=9' bash tests/page.sh
set -u
cd "$(dirname "$0")/.." || exit 2
. tests/page/bytes.sh
page=crates/page/out/page
[ -x "$page" ] || { echo "$page is missing: rt run in crates/page" >&2; exit 1; }
scratch=$(mktemp -d)
trap 'rm -rf "$scratch"' EXIT
failed=0
cases=0

lines() {
    awk '/^[0-9]+\*\( .* \)$/ { n = $0 + 0; sub(/^[^(]*\( /, ""); sub(/ \)$/, ""); while (n-- > 1) print } { print }'
}

for case in tests/page/*.case; do
    cases=$((cases + 1))
    bytes "$case" > "$scratch/job"
    sed '1,/^page:$/d' "$case" | lines > "$scratch/want"
    if ! ${RUNNER:-} "$page" < "$scratch/job" > "$scratch/got"; then
        echo "$case: page ended with a failure"
        failed=$((failed + 1))
    elif ! cmp -s "$scratch/want" "$scratch/got"; then
        echo "$case: page prints something else:"
        diff "$scratch/want" "$scratch/got" | head -n 6
        failed=$((failed + 1))
    fi
done

echo "page: $((cases - failed)) of $cases cases"
[ "$cases" -gt 0 ] && [ "$failed" -eq 0 ]
