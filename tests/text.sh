#!/usr/bin/env bash
# The programs `assemble` and `listing`: texts with their sheets; and what is refused, of which standard output has nothing. Texts are
# written with printf's escapes, sheets in hexadecimal bytes, where N*( .. ) repeats what stands between N times.
# Needs crates/assemble/out/assemble and crates/listing/out/listing (rt ci, or rt run there). RUNNER may hold a command to run them under:
#     RUNNER='valgrind -q --error-exitcode=9' bash tests/text.sh
set -u
cd "$(dirname "$0")/.." || exit 2
. tests/page/bytes.sh
for program in assemble listing; do
    [ -x "crates/$program/out/$program" ] || { echo "crates/$program/out/$program is missing: rt run in crates/$program" >&2; exit 1; }
done
scratch=$(mktemp -d)
trap 'rm -rf "$scratch"' EXIT
failed=0
cases=0

text() { printf %b "$1"; }
sheet() { bytes <(printf 'job: %s\n' "${1//$'\n'/ }"); }

# hold PROGRAM INPUT OUTPUT [ERROR]: what the program writes for the input on standard output, and the line on standard error
hold() {
    local from=text to=sheet
    [ "$1" = assemble ] || { from=sheet; to=text; }
    "$from" "$2" > "$scratch/in"
    "$to" "$3" > "$scratch/want"
    printf '%s' "${4:+$4$'\n'}" > "$scratch/error"
    cases=$((cases + 1))
    if ! ${RUNNER:-} "crates/$1/out/$1" < "$scratch/in" > "$scratch/got" 2> "$scratch/said"; then
        echo "$1 ended with a failure: ${2:0:60}"
    elif ! cmp -s "$scratch/want" "$scratch/got" || ! cmp -s "$scratch/error" "$scratch/said"; then
        echo "$1 writes something else: ${2:0:60}"
        diff <(od -An -c "$scratch/want") <(od -An -c "$scratch/got") | head -n 6
        diff "$scratch/error" "$scratch/said"
    else
        return
    fi
    failed=$((failed + 1))
}

# reads TEXT SHEET [NORMAL]: the text gives the sheet, and the sheet its normal text, which is TEXT where no other is given
reads() {
    hold assemble "$1" "$2"
    hold listing "$2" "${3-$1}"
}
refused() { hold assemble "$3" '' "refused $1 $2"; }  # NUMBER LINE TEXT
unlisted() { hold listing "$3" '' "refused $1 $2"; }  # NUMBER PLACE SHEET
times() { yes -- "$2" | head -n "$1" | tr -d '\n'; }  # COUNT TEXT

# there and back
reads '' ''
reads "$(< examples/berth.txt)\n" "$(tail -c +46 examples/berth-public.job | od -An -v -tx1)"
reads 'Add\nSub\nPop\nOutput\nPush 258\nLoad\nStore\nJump\nBnz -2\nCall\nRet\nOutputTo 7\nCallN 2 1\nRetV\n' \
    '01 02 03 04 05 02 01 00 00 00 00 00 00 06 07 08 09 fe ff 0a 0b 0c 07 0d 02 01 0e'
reads 'Push 9223372036854775807\nPush -9223372036854775808\n' '05 7*( ff ) 7f 05 7*( 00 ) 80'
reads 'Bnz 32767\nBnz -32768\n' '09 ff 7f 09 00 80'
reads 'OutputTo 0\nOutputTo 4\nOutput\nOutputTo 12\nOutputTo 15\n' '0c 00 0c 04 04 0c 0c 0c 0f'
reads 'CallN 0 0\nCallN 15 1\nCallN 0 1\nCallN 15 0\nCall\n' '0d 00 00 0d 0f 01 0d 00 01 0d 0f 00 0a'
reads 'RetV\nCallN 13 0\nCallN 14 1\nRetV\nRet\n' '0e 0d 0d 00 0d 0e 01 0e 0b'

# not the normal text: a missing newline, a minus before 0, leading zeros
reads 'Push -007\nOutput' '05 f9 7*( ff ) 04' 'Push -7\nOutput\n'
reads 'Push -0\nBnz -0\n' '05 8*( 00 ) 09 00 00' 'Push 0\nBnz 0\n'
reads 'Push 007\nPush 010\nBnz 00\n' '05 07 7*( 00 ) 05 0a 7*( 00 ) 09 00 00' 'Push 7\nPush 10\nBnz 0\n'
reads 'OutputTo -0\nOutputTo 007\nOutputTo 010' '0c 00 0c 07 0c 0a' 'OutputTo 0\nOutputTo 7\nOutputTo 10\n'
reads "OutputTo $(times 500 0)15\nOutputTo -$(times 500 0)\n" '0c 0f 0c 00' 'OutputTo 15\nOutputTo 0\n'
reads 'CallN -0 01\nCallN 007 -0\nRetV' '0d 00 01 0d 07 00 0e' 'CallN 0 1\nCallN 7 0\nRetV\n'
reads "CallN $(times 500 0)15 $(times 500 0)1" '0d 0f 01' 'CallN 15 1\n'
reads "Push $(times 499 0)7\nBnz -$(times 495 0)32768\n" '05 07 7*( 00 ) 09 00 80' 'Push 7\nBnz -32768\n'

# the longest: 4,096 lines, with the longest operands, and 131,072 bytes
reads "$(times 4096 'Add\n')" '4096*( 01 )'
reads "$(times 4095 'Add\n')Add" '4096*( 01 )' "$(times 4096 'Add\n')"
reads "$(times 4096 'Push -9223372036854775808\n')" '4096*( 05 00 00 00 00 00 00 00 80 )'
reads "$(times 4096 'OutputTo 15\n')" '4096*( 0c 0f )'
reads "$(times 4096 'CallN 15 1\n')" '4096*( 0d 0f 01 )'
reads "Push $(times 131066 0)7" '05 07 7*( 00 )' 'Push 7\n'
hold assemble "Push $(times 131067 0)7" '' 'the text is longer than 131072 bytes'
hold assemble "$(times 50000 'add\n')" '' 'the text is longer than 131072 bytes'

# 10: a name that is unknown, in another case, cut, longer, a code, behind other bytes; a comment
for line in 'push 1' 'PUSH 1' output 'Pus 1' 'Pushx 1' Push1 Or '05 1' 1 ' Add' '\tAdd' '\0Add' '\xef\xbb\xbfAdd' 'Add;' '# Add' \
    'outputto 1' 'Outputto 1' 'OUTPUTTO 1' 'OutputT 1' 'OutputToo 1' OutputTo1 'Output-To 1' \
    'calln 2 1' 'Calln 2 1' 'CALLN 2 1' 'Cal 2 1' 'CallNN 2 1' 'CallN2 1' retv Retv RETV RetVV RetN '0d 2 1' 0e; do
    refused 10 1 "$line\n"
done
# operands missing or too many; two spaces, a space at the end, a tab, a carriage return
for line in Push Bnz 'Push 1 2' 'Add 1' 'Add # sum' 'Push  1' 'Push 1 ' 'Add ' 'Push\t1' 'Push 1\t' 'Push\xc2\xa01' 'Push 1\r' 'Add\r' \
    OutputTo 'Output 3' 'Output To 3' 'OutputTo 3 4' 'OutputTo  3' 'OutputTo 3 ' 'OutputTo\t3' 'OutputTo 3\r' \
    CallN 'CallN 2' 'CallN 33' 'CallN 2 1 0' 'CallN 2  1' 'CallN  2 1' 'CallN 2 1 ' 'CallN 2\t1' 'CallN 2 1\r' 'CallN 2\n1' 'Call 2 1' \
    'Call 1' 'Call N 2 1' 'RetV 1' 'RetV ' 'Ret V' 'RetV\r'; do
    refused 10 1 "$line\n"
done
# an operand that is badly written
for operand in '' - +1 --1 1- '- 1' 0x1 1.0 1,000 1e3 one '\xe2\x88\x921'; do
    refused 10 1 "Push $operand\n"
    refused 10 1 "Bnz $operand\n"
    refused 10 1 "OutputTo $operand\n"
    refused 10 1 "CallN $operand 1\n"
    refused 10 1 "CallN 2 $operand\n"
done
# empty lines; lines count from 1, and the first that is at fault is refused
refused 10 1 '\n'
refused 10 1 '\nAdd\n'
refused 10 2 'Add\n\n'
refused 10 2 'Add\n\nSub\n'
refused 10 3 'Add\nSub\nadd'

# 11: outside the range, next to it and far; 10 before 11 on one line, and whichever line is first
refused 11 1 'Bnz 32768\n'
refused 11 1 'Bnz -32769\n'
refused 11 1 'OutputTo 16\n'
refused 11 1 'OutputTo -1\n'
refused 11 1 'OutputTo 255\n'
refused 11 1 'OutputTo 256\n'
refused 11 1 'OutputTo 271\n'
refused 11 1 "OutputTo $(times 500 0)16\n"
refused 11 1 'CallN 16 1\n'
refused 11 1 'CallN 15 2\n'
refused 11 1 'CallN -1 0\n'
refused 11 1 'CallN 0 -1\n'
refused 11 1 'CallN 16 2\n'
refused 11 1 'CallN 0 16\n'
refused 11 1 'CallN 256 1\n'
refused 11 1 'CallN 2 257\n'
refused 11 1 "CallN 2 $(times 500 9)\n"
refused 11 1 'Push 9223372036854775808\n'
refused 11 1 'Push -9223372036854775809\n'
refused 11 1 'Push 18446744073709551616\n'
refused 11 1 "Push $(times 500 9)"
refused 10 1 'Push 9223372036854775808 1\n'
refused 10 1 'Bnz 32768\r\n'
refused 10 1 'OutputTo 16 1\n'
refused 10 1 'Output 16\n'
refused 10 1 'CallN 16\n'
refused 10 1 'CallN 16 1 1\n'
refused 10 1 'CallN 16 +1\n'
refused 10 1 'CallN one 2\n'
refused 10 1 'CallN 16  1\n'
refused 11 2 'CallN 15 1\nCallN 16 1\nCallN 2\n'
refused 10 2 'CallN 15 1\nCallN 2\nCallN 16 1\n'
refused 11 2 'Push 1\nBnz 32768\nadd\n'
refused 10 2 'Push 1\nadd\nBnz 32768\n'

# 1: the 4,097th line, whatever it holds, after the faults before it
refused 1 4097 "$(times 4097 'Add\n')"
refused 1 4097 "$(times 4096 'Add\n')Add"
refused 1 4097 "$(times 4096 'Add\n')\n"
refused 1 4097 "$(times 4096 'Add\n')Bnz 32768\n"
refused 1 4097 "$(times 4096 'Add\n')OutputTo 16\n"
refused 1 4097 "$(times 4096 'Add\n')CallN 16 2\n"
refused 10 4096 "$(times 4095 'Add\n')add\nAdd\n"
refused 11 4096 "$(times 4095 'Add\n')Bnz 32768\nAdd\n"
refused 11 4096 "$(times 4095 'Add\n')OutputTo 16\nAdd\n"
refused 11 4096 "$(times 4095 'Add\n')CallN 15 2\nAdd\n"

# sheets that are not listed: commands too many, an unknown code, a cut operand, a page over 15, a call out of range; a text, a job
unlisted 1 4096 '4097*( 03 )'
unlisted 1 36864 '4097*( 05 00 00 00 00 00 00 00 00 )'
unlisted 2 0 '00'
unlisted 2 0 '0f'
unlisted 2 2 '0c 0f 0f 0c 10'
unlisted 2 4 '0d 0f 01 0e 0f 0d 10 01'
unlisted 2 10 '05 8*( 00 ) 06 ff 04'
unlisted 3 0 '05 01'
unlisted 3 0 '05'
unlisted 3 1 '03 09 00'
unlisted 3 0 '0c'
unlisted 3 2 '0c 00 0c'
unlisted 3 0 '0d'
unlisted 3 1 '0e 0d 02'
unlisted 3 3 '0d 0f 01 0d 10'
unlisted 12 0 '0c 10'
unlisted 12 1 '03 0c ff 04'
unlisted 12 0 '0c 10 00'
unlisted 12 4095 '4095*( 03 ) 0c 10 03'
unlisted 1 4096 '4096*( 03 ) 0c 10'
unlisted 14 0 '0d 10 00'
unlisted 14 0 '0d 0f 02'
unlisted 14 0 '0d 00 10'
unlisted 14 1 '03 0d ff ff 04'
unlisted 14 0 '0d 00 02 0f'
unlisted 14 0 '0d 10 01 0c 10'
unlisted 12 0 '0c 10 0d 10 01'
unlisted 14 4095 '4095*( 03 ) 0d 10 01 03'
unlisted 1 4096 '4096*( 03 ) 0d 10 02'
unlisted 2 0 '50 75 73 68 20 31'
unlisted 2 0 '43 06'

echo "text: $((cases - failed)) of $cases cases"
[ "$cases" -gt 0 ] && [ "$failed" -eq 0 ]
