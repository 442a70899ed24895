# Sourced: bytes CASE writes the job of a case of this folder, whose 'job:' lines are hexadecimal bytes and N*( .. ) repeats N times.
bytes() {
    local escapes
    escapes=$(sed -n 's/^job://p' "$1" | awk '
        { text = text " " $0 }
        END {
            n = split(text, w, " ")
            for (i = 1; i <= n; i++) {
                if (w[i] ~ /^[0-9]+\*\($/) { count = w[i] + 0; inside = 1; part = "" }
                else if (w[i] == ")") { for (k = 0; k < count; k++) printf "%s", part; inside = 0 }
                else if (inside) part = part "\\x" w[i]
                else printf "\\x%s", w[i]
            }
        }')
    printf "$escapes"
}
