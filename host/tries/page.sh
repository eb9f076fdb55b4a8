# Sourced by host/header: the C of docs/HOST.md, put together, compiles and does what the page says, and the commands that
# README.md shows print what it shows; and CHANGES.md has a line for each version.
sed -n '/^```c$/,/^```$/{/^```/!p}' "$top/docs/HOST.md" >"$place/page.c"
cat >>"$place/page.c" <<'END'
int main(void)
{
    look();
    ask();
    judge();
    proof();
    test();
    plan();
    widen();
    return 0;
}
END
"$cc" "${c99[@]}" "${link[@]}" "$place/page.c" "$made/libdruvelstek.a" -o "$place/page"
said=$("${emulator[@]}" "$place/page")
for words in 'colours: 1, motifs: 1, rules: 3, start: 0' 'row 2, column 3 is of Red' '18 trials to make' '18 trials made' accepted '2 by 3, rule 1' 'a cell of Red' 'can be ordered: 1' "tree: accepted" 'not a derivation of the sheet, node 10' 'in Blue: not in the family' 'in Red again: accepted' 'the engines agree' '2 of 2 sheets accepted, 7 cells' 'sheet 2 is of job ticket 8' 'a book of 34 bytes' 'tidied: 19 bytes' 'at most 12 columns: a count, a length, rows or columns out of range' 'at most 24 columns: accepted'; do
    [[ $said == *"$words"* ]] || fail "the page's program says" "$said"
done

sed -n '/^    \$ /,/^$/p' "$top/README.md" >"$place/shown"
sed -n 's/^    \$ //p' "$place/shown" | while read -r program files; do
    echo "    \$ $program $files"
    # What is compiled needs the emulator, where there is one; scripts use it themselves.
    by=("${emulator[@]}")
    [[ $program == target/* ]] || by=()
    (cd "$top" && "${by[@]}" "$program" $files || true) | sed 's/^/    /'
    echo
done >"$place/printed"
[ -s "$place/shown" ] || fail "README.md shows no command"
diff "$place/shown" "$place/printed" || fail "README.md shows something else than is printed"
listed=$(sed -nE 's/^\| ([0-9]+) \|.*/\1/p' "$top/CHANGES.md")
[ "$listed" = "$(seq "$version")" ] || fail "CHANGES.md has lines for" $listed "and not for each version up to $version"
[[ $(<"$top/README.md") == *"libdruvelstek.so.$version"* ]] || fail "README.md names the shared library of another version"
echo "header: the program of docs/HOST.md and the commands of README.md do what is said there"
