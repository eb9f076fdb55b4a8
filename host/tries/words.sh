# Sourced by host/header: what the example and the report say of the samples, of sheets that are not in the family, of
# sheets for the wide press and of files that are refused, and what they exit with.

# says STATUS WORDS PROGRAM [--wide] FILE..: the program exits so, and what it prints fits these words, a pattern.
says() {
    local expected=$1 words=$2 said status=0
    shift 2
    said=$("${emulator[@]}" "$made/$1" "${@:2}" 2>"$place/errors") || status=$?
    [[ $status -eq $expected && $said == $words ]] || fail "$* ends with $status and says: $said$(cat "$place/errors")"
}

# of_sheet STATUS WORDS SHEET: asked about this sheet, spelt for printf, under the sample book.
of_sheet() {
    printf "$3" >"$place/sheet.bin"
    says "$1" "$2" example "$book" "$place/sheet.bin"
}

# of_run STATUS WORDS RUN: likewise, a report on this run.
of_run() {
    printf "$3" >"$place/run.bin"
    says "$1" "$2" report "$book" "$place/run.bin"
}

for file in book sheet; do
    cmp "$samples/$file.bin" "$top/crates/belongs/data/$file.bin"
done
book=$samples/book.bin sheet=$samples/sheet.bin run=$samples/run.bin slates='\7Slate C\7Slate U'
head -c 20 "$book" >"$place/cut-book.bin"
head -c 20 "$sheet" >"$place/cut-sheet.bin"
head -c 70000 /dev/zero >"$place/long.bin"

says 0 '*12 of 144 sizes*job ticket 0*the sheet: accepted*side by side*one above the other*Slate U' \
    example "$book" "$sheet"
says 0 '*the two families side by side: accepted?a book of 52 bytes' example "$book" "$sheet" "$book"
# The sample book with 29 motifs that nothing uses, and one whose start cannot be rewritten: too much to be joined.
printf "\2$slates\40\0\4\0\1\0\0\0\2\1\2\1\0\0\2\0\1" >"$place/untidy.bin"
printf "\2$slates\40\3\5\0\1\0\0\0\2\1\2\1\0\0\2\0\1\3\1\3\0" >"$place/endless.bin"
says 0 '*side by side: too many colours, motifs or rules?the book tidied: 34 bytes of 34?the second book tidied: 34 bytes of 34?the two families side by side: accepted?a book of 52 bytes' \
    example "$place/untidy.bin" "$sheet" "$book"
says 2 '*the second book: its start motif cannot be rewritten to colours?the two families side by side: too many *' \
    example "$book" "$sheet" "$place/endless.bin"
says 1 '*job ticket 301*not in the family*rows 1 to 2 of columns 2 to 3, *' example "$book" "$samples/declined.bin"
of_sheet 1 '*no rule names the ink of row 2, column 3: Red' "\3$slates\3Red\0\2\3\0\0\0\1\1\2"
of_sheet 1 '*the family has no sheet of 1 by 1' "\2$slates\0\1\1\0"
of_sheet 1 '*sheets of 2 by 3, and no piece of this one belongs*' "\2$slates\0\2\3\1\1\1\0\0\0"
of_sheet 0 '*job ticket 16384?the sheet: accepted*' "\2$slates\200\200\1\2\1\0\1"
of_sheet 2 '*the sheet: bytes follow the end, at byte 27' "\2$slates\0\2\3\0\0\0\1\1\1\0"
says 2 'the book: ends too early, at byte 21' example "$place/cut-book.bin" "$sheet"
says 2 '*the sheet: ends too early, at byte 21' example "$book" "$place/cut-sheet.bin"
says 2 '*the second book: ends too early, at byte 21' example "$book" "$sheet" "$place/cut-book.bin"
says 2 '' example "$book" "$place/missing.bin"

# Slate C over Slate U in 13 columns, more than press 0 takes.
wide="\2$slates\0\2\15$(printf '\\0%.0s' {1..13})$(printf '\\1%.0s' {1..13})"
says 0 '*24 of 576 sizes*job ticket 0*the sheet: accepted*Slate U' example --wide "$book" "$sheet"
of_sheet 2 '*12 of 144 sizes*the sheet: a count, a length, rows or columns out of range, at byte 20' "$wide"
says 0 '*24 of 576 sizes*the sheet: accepted*2 by 13 at row 1, column 1, *' example --wide "$book" "$place/sheet.bin"
says 0 '*the sheet: accepted*side by side: accepted?a book of 52 bytes' example --wide "$book" "$sheet" "$book"
says 1 '*not in the family*rows 1 to 2 of columns 2 to 3, *' example --wide "$book" "$samples/declined.bin"
says 2 '' example --wide "$book"

says 0 "5 sheets
2 sheets: accepted
1 sheet: ends too early
2 sheets: not in the family
sheet 3, job ticket 301: not in the family
sheet 4: ends too early, at its byte 1
sheet 5, job ticket 303: not in the family
Slate C: 4 cells
Slate U: 4 cells
job tickets 300 to 302" report "$book" "$run"
of_run 0 "0 sheets*no sheet is accepted*" ''
of_run 2 'the run: a number is misspelt, at byte 1' '\200\0'
of_run 2 'the run: ends too early, at byte 3' '\0\3'
says 2 'the run: longer than 65536 bytes, *' report "$book" "$place/long.bin"
says 2 'the book: ends too early, at byte 21' report "$place/cut-book.bin" "$run"
says 2 '' report "$book" "$place/missing.bin"
of_run 0 '1 sheet?1 sheet: *?sheet 1: a count, a length, rows or columns out of range, at its byte 20*no sheet is accepted*' "\56$wide"
says 0 '1 sheet?1 sheet: accepted?Slate C: 13 cells?Slate U: 13 cells?job tickets 0 to 0' \
    report --wide "$book" "$place/run.bin"
says 2 '' report --wide "$book"
echo "header: example and report say what they should, and exit as they should"
