#!/usr/bin/env bash
# Fuzzes the exported functions: bash tests/fuzz/run.sh [SECONDS [TARGET]]. TARGET is page (default), the page function, which starts from
# the jobs of tests/page/; or text, the reader and the lister, which start from a text with every command and one with a line too many.
# libFuzzer makes other inputs after the branches that these reach: the library is compiled from the same proved crates with counters for
# them, by a copy of the kit whose compiler gets one flag more. Needs clang with libFuzzer (Debian: clang) beside the kit. Not in the gate.
set -eu
cd "$(dirname "$0")/../.."
. tests/page/bytes.sh
seconds=${1:-60}
target=${2:-page}
[ -e "tests/fuzz/$target.c" ] || { echo "usage: bash tests/fuzz/run.sh [SECONDS [page|text]]" >&2; exit 2; }
home=$(dirname "$(rt doc)")
work=target/fuzz
rm -rf "$work"
mkdir -p "$work/kit/bin" "$work/kit/toolchain/bin" "$work/seeds" "$work/found"

# the kit, with a compiler that counts branches; rt takes the folder that its files lie in
for part in "$home"/* "$home"/bin/* "$home"/toolchain/* "$home"/toolchain/bin/*; do
    [ -e "$work/kit/${part#"$home/"}" ] || ln -s "$part" "$work/kit/${part#"$home/"}"
done
for part in bin/rt bin/rtlib.py toolchain/bin/clang; do
    rm "$work/kit/$part"
done
cp "$home/bin/rt" "$home/bin/rtlib.py" "$work/kit/bin"
cat > "$work/kit/toolchain/bin/clang" <<END
#!/usr/bin/env bash
exec "$home/toolchain/bin/clang" -fsanitize=fuzzer-no-link "\$@"
END
chmod +x "$work/kit/toolchain/bin/clang"
kit=$PWD/$work/kit
(cd crates/exports_c && "$kit/bin/rt" lib)
mv crates/exports_c/out/libexports_c.a "$work/libexports.a"

case $target in
page)
    for case in tests/page/*.case; do
        bytes "$case" > "$work/seeds/$(basename "$case" .case)"
    done
    ;;
text)
    printf '%s\n' Add Sub Pop Output 'Push -9223372036854775808' Load Store Jump 'Bnz 032767' Call Ret 'OutputTo 015' 'CallN 015 1' RetV \
        > "$work/seeds/commands"
    yes Add | head -n 4097 > "$work/seeds/lines"
    ;;
esac
clang -O1 -Wall -Wextra -Werror -fsanitize=fuzzer -I include "tests/fuzz/$target.c" "$work/libexports.a" -o "$work/$target"
"$work/$target" -max_total_time="$seconds" -max_len=65537 -timeout=20 -artifact_prefix="$work/" -print_final_stats=1 "$work/found" "$work/seeds"
