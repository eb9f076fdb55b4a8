# Sourced by host/header: what host/spell makes of texts and shows of files, and that each file that it shows, spelt again
# from that text, has the same bytes.
spell=("${emulator[@]}" "$made/spell")
room=$place/spelled
mkdir "$room"

# The samples are what their texts say.
"$samples/make" "$room/samples" >/dev/null
for sample in book sheet declined run; do
    cmp "$samples/$sample.bin" "$room/samples/$sample.bin" || fail "the text of the sample $sample has other bytes"
done

# again KIND FILE..: shown and spelt again, the files have the same bytes.
again() {
    local kind=$1 file
    shift
    for file in "$@"; do
        "${spell[@]}" show "--$kind" "$file" >"$room/shown.txt"
        "${spell[@]}" "$kind" "$room/shown.txt" "$room/again.bin" >/dev/null
        cmp "$file" "$room/again.bin" || fail "$file, shown and spelt again, has other bytes; its text: $(cat "$room/shown.txt")"
    done
}
program spelled tries/spelled shared/{chance,grow,grow_palette,spell}.c
(cd "$room" && "${emulator[@]}" "$made/spelled")
again book "$room"/book-*.bin
again sheet "$room"/sheet-*.bin "$samples/sheet.bin" "$samples/declined.bin"

# of_text STATUS WORDS KIND [OPTION] TEXT: spelt, the text ends so, with these words, a pattern; a file is written on 0 alone.
of_text() {
    local expected=$1 words=$2 said status=0 written=0
    shift 2
    rm -f "$room/out.bin"
    printf '%s' "${@: -1}" >"$room/text"
    said=$("${spell[@]}" "${@:1:$#-1}" "$room/text" "$room/out.bin" 2>&1) || status=$?
    [ -e "$room/out.bin" ] || written=2
    [[ $status -eq $expected && $written -eq $expected && ${said#"$room/"} == $words ]] ||
        fail "spell $1 of '$(head -c 300 "$room/text")' ends with $status and says: $said"
}

cp "$samples/letter.txt" "$room/kept.txt"
! "${spell[@]}" book "$room/kept.txt" "$room/kept.txt" 2>/dev/null || fail "spell writes over the text that it reads"
cmp "$samples/letter.txt" "$room/kept.txt"

# The texts of README.md, and what a text may have in it.
for name in letter letter-sheet; do
    [[ $(<"$top/README.md") == *"$(sed 's/^/    /' "$samples/$name.txt")"* ]] || fail "README.md shows another $name.txt"
done
letter=$(<"$samples/letter.txt")
of_text 0 '*: a book of 41 bytes with 2 colours, 3 motifs and 6 rules' book "$letter"
of_text 0 '* with 1 colour, 1 motif and 1 rule' book $'# a comment\r\n\tstart a # and one more\r\na="x" # with no line end'
of_text 0 '* with 3 colours, 2 motifs and 2 rules' book $'colours "c" "b"\nmotifs b a\na = "a"\n\n  | b above a\nstart a'
again book "$room/out.bin"
of_text 0 '*' book 'start a
a = "\"\\ #|="'
again book "$room/out.bin"

# A fault gets its line and what was expected.
of_text 2 'text:1: expected a rule, found the end of the text' book ''
of_text 2 'text:2: expected a line with start and a motif, found the end of the text' book $'a = "x"\n'
of_text 2 'text:2: expected the name of a colour, found the end of the text' book $'start a\na = a beside a'
of_text 2 'text:3: expected a rule for strap, or a line of motifs *' book "${letter/strip |/strip | strap above strip |}"
of_text 2 'text:1: expected a rule for lettr, or a line of motifs *' book "${letter/letter/lettr}"
of_text 2 'text:3: expected beside or above, found besides' book "${letter/strip beside/strip besides}"
of_text 2 'text:3: expected a motif, found |' book "${letter/beside strip/beside}"
of_text 2 'text:3: expected a motif or a name in quotes, found above' book "${letter/strip beside/above beside}"
of_text 2 'text:4: expected | or the end of the line, found panel' book "$letter panel"
of_text 2 'text:5: expected a rule that did not stand before' book "$letter"$'\nstrip = "Slate C"'
of_text 2 'text:5: expected one start' book "$letter"$'\nstart strip'
of_text 2 'text:1: expected start, motifs, colours or the motif of a rule, found |' book "| $letter"
of_text 2 'text:1: expected start, * found a byte of value 195' book $'\303'
of_text 2 'text:2: expected =, found -' book $'start a\na - a'
of_text 2 'text:2: expected the quote at the end of a name, found the end of the line' book $'start a\na = "x\n'
of_text 2 'text:2: expected a name of at most 40 bytes' book $'start a\na = "'"$(printf 'x%.0s' {1..41})"'"'
of_text 2 'text:2: expected a name of at least one byte' book $'start a\na = ""'
of_text 2 'text:2: expected a name with no blank at either end' book $'start a\na = "x "'
of_text 2 'text:2: expected bytes from 32 to 126 in a name' book $'start a\na = "\t"'
of_text 2 'text:2: expected \\" or \\\\ where a name has a backslash' book $'start a\na = "\\n"'
of_text 2 'text:2: expected at most 64 colours' book $'start a\ncolours'"$(printf ' "%d"' {1..65})"
of_text 2 'text:2: expected at most 32 motifs' book $'start m1\nmotifs'"$(printf ' m%d' {1..33})"
bodies='"x"'$(printf ' | m%d above m1 | m%d beside m1' {1..20}{,})
many=$(for head in {1..6}; do echo "m$head = $bodies"; done)
of_text 2 'text:5: expected at most 200 rules' book "$many"

sheet_text='ticket 301
C = "Slate C"
U = "Slate U"

CCC
CUU'
of_text 0 '*: a sheet of 27 bytes, 2 by 3, job ticket 301' sheet "$sheet_text"
cmp "$room/out.bin" "$samples/declined.bin"
of_text 0 '*, 1 by 6, *' sheet $'ticket 2097151\nt = "t"\ni = "i"\nc = "c"\nk = "k"\ne = "e"\nt i c k e t'
of_text 2 'text:1: expected ticket and the number of the job, found C' sheet $'C = "Slate C"\nC'
of_text 2 'text:1: expected a number from 0 to 2097151, found 2097152' sheet $'ticket 2097152\nC = "Slate C"\nC'
of_text 2 'text:4: expected a letter that has no colour yet, found C' sheet "${sheet_text/U =/$'U = "Slate"\nC ='}"
of_text 2 'text:3: expected a name that did not stand before' sheet "${sheet_text/Slate U/Slate C}"
of_text 2 'text:5: expected LETTER = "NAME", or a row of such letters, found XCC' sheet "${sheet_text/CCC/XCC}"
of_text 2 'text:6: expected a row as long as the first, found the end of the text' sheet "${sheet_text/CUU/CU}"
of_text 2 'text:6: expected a row as long as the first, found U' sheet "${sheet_text/CUU/CUUU}"
of_text 2 'text:6: expected a letter that has a colour, found "' sheet "${sheet_text/CUU/C\"}"
of_text 2 'text:5: expected a row of letters, found the end of the text' sheet "${sheet_text%%CCC*}"
row=$(printf 'C%.0s' {1..13})
of_text 2 'text:3: expected at most 12 cells in a row' sheet $'ticket 1\nC = "Slate C"\n'"$row"
of_text 0 '*, 1 by 13, job ticket 1' sheet --wide $'ticket 1\nC = "Slate C"\n'"$row"
of_text 2 'text:15: expected at most 12 rows' sheet $'ticket 1\nC = "Slate C"\n'"${row//C/$'C\n'}"
of_text 0 '*, 13 by 1, job ticket 1' sheet --wide $'ticket 1\nC = "Slate C"\n'"${row//C/$'C\n'}"

of_text 0 '*: a run of 0 bytes with 0 sheets' run '# nothing'
of_text 0 '*: a run of 27 bytes with 1 sheet' run "$samples/sheet.bin"
of_text 0 '*: a run of 30 bytes with 4 sheets' run --any "$samples/sheet.bin"$'\n/dev/null\n/dev/null\n/dev/null'
of_text 2 '/dev/null: refused as a sheet: ends too early, at byte 1' run "$samples/sheet.bin"$'\n/dev/null'
of_text 2 'missing.bin: *' run "$room/missing.bin"
sheets=$(for i in {1..2428}; do echo "$samples/sheet.bin"; done)
of_text 2 'text:2428: expected a run of at most 65536 bytes' run "$sheets"

# of_files STATUS WORDS FILE..: shown, the files end so, with these words, a pattern.
of_files() {
    local expected=$1 words=$2 said status=0
    shift 2
    said=$("${spell[@]}" show "$@" 2>&1) || status=$?
    [[ $status -eq $expected && ${said//"$room/"/} == $words ]] || fail "spell show $* ends with $status and says: $said"
}

# Motifs get their numbers at the head of a rule, the start where it comes before all rules.
of_text 0 '*' book $'start b\na = "x"\nb = a beside a'
of_files 0 $'start m0\nm1 = "x"\nm0 = m1 beside m1' "$room/out.bin"
of_text 0 '*' book $'a = "x" | b above a\nstart b\nc = "y"\nb = c beside a'
of_files 0 $'motifs m0 m1 m2\nstart m2\nm0 = "x"\n   | m2 above m0\nm1 = "y"\nm2 = m1 beside m0' "$room/out.bin"

book=$samples/book.bin
"${spell[@]}" book "$samples/letter.txt" "$room/letter.bin" >/dev/null
of_files 0 'start m0
m0 = m1 above m2
m1 = m1 beside m1
   | "Slate C"
m2 = m2 beside m2
   | m2 above m2
   | "Bone U"' "$room/letter.bin"
of_files 0 'ticket 301
A = "Slate C"
B = "Slate U"
AAA
ABB' "$samples/declined.bin"
of_files 0 'ticket 0
A = "Slate C"
B = "Slate U"
+-----+
|A A A|
+-----+
|B B B|
+-----+
in the family' "$book" "$samples/sheet.bin"
of_files 1 '*
+-+---+
|A|A A|
|A|B B|
+-+---+
not in the family: the largest piece that is: rows 1 to 2 of columns 2 to 3

*
in the family' "$book" "$samples/declined.bin" "$samples/sheet.bin"

# drawn STATUS WORDS GRID: a sheet of Slate C, Slate U and Red under the sample book.
drawn() {
    printf 'ticket 0\nC = "Slate C"\nU = "Slate U"\nR = "Red"\n%s\n' "$3" >"$room/text"
    "${spell[@]}" sheet "$room/text" "$room/drawn.bin" >/dev/null
    of_files "$1" "$2" "$book" "$room/drawn.bin"
}
drawn 1 $'*\n+---+-+\n|A A|C|\n|   +-+\n|B B B|\n+-----+\nnot in the family: no rule names the colour in row 1, column 3: "Red"' $'CCR\nUUU'
drawn 1 '*: the family has no sheet of 1 by 3' CUC
drawn 1 '*: the family has sheets of 2 by 1, but no piece of this one is in it' $'U\nC'

of_text 0 '*, 2 by 13, *' sheet --wide $'ticket 1\nC = "Slate C"\nU = "Slate U"\n'"$row"$'\n'"${row//C/U}"
of_files 2 '*: refused as a sheet: a count, a length, rows or columns out of range, at byte 20' "$book" "$room/out.bin"
of_files 0 '*
+-------------------------+
|A A A A A A A A A A A A A|
+-------------------------+
|B B B B B B B B B B B B B|
+-------------------------+
in the family' --wide "$book" "$room/out.bin"
of_files 2 '*letter.txt: refused as a book: *, at byte 1*letter.txt: refused as a sheet: *' "$samples/letter.txt"
of_files 2 '*: refused as a book: ends too early, at byte 1' --book /dev/null
of_files 2 '*: refused as a sheet: ends too early, at byte 1' --sheet /dev/null
of_files 2 '*: refused as a sheet: ends too early, at byte 1' "$book" /dev/null
of_files 2 'book-0003.bin: both a book and a sheet: --book or --sheet says which to show' "$room/book-0003.bin"
of_files 2 'usage: *' --book "$book" "$samples/sheet.bin"

# Cut anywhere, a text is a fault or another text.
for kind in book sheet; do
    text=$letter
    [ $kind = book ] || text=$sheet_text
    for ((length = 0; length < ${#text}; length++)); do
        status=0
        rm -f "$room/out.bin"
        printf '%s' "${text:0:length}" >"$room/text"
        "${spell[@]}" $kind "$room/text" "$room/out.bin" >/dev/null 2>"$room/errors" || status=$?
        [[ $status -eq 0 && -s "$room/out.bin" || $status -eq 2 && -s "$room/errors" && ! -e "$room/out.bin" ]] ||
            fail "spell $kind of '${text:0:length}' ends with $status"
    done
done
echo "header: $(ls "$room" | grep -c '^book-') books and $(ls "$room" | grep -c '^sheet-') sheets, shown and spelt again, have the same bytes"
