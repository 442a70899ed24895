# Sourced from the top of the repository: sets LUVRODAN_ARCHIVE, unless it is set, to the static library of the crate that
# hands the engines to C, proved and built here. Where there is no such crate it stays empty.
crate=${LUVRODAN_CRATE:-exports_c}
if [ -z "${LUVRODAN_ARCHIVE:-}" ] && grep -q "^$crate staticlib:" crates.txt; then
    LUVRODAN_ARCHIVE=target/staticlib/lib${crate%_c}.a
    mkdir -p target/staticlib
    (cd "crates/$crate" && rt lib) >&2 && cp "crates/$crate/out/lib$crate.a" "$LUVRODAN_ARCHIVE"
fi
export LUVRODAN_ARCHIVE=${LUVRODAN_ARCHIVE:-}
