# Sourced by host/header: the example and the report compile where host/install put them, against what it put in place, the
# archive and the shared library; the shared library does what the independent engine does; nothing is left by
# --uninstall; and a PREFIX that no command line takes is refused.
need pkg-config pkg-config
prefix=$place/installed staged="$place/staged below"
DESTDIR=$staged "$top/host/install" "$prefix"
[ ! -e "$prefix" ] || fail "host/install puts files into PREFIX itself where DESTDIR is set"
mv "$staged$prefix" "$prefix"
cp "$prefix/lib/pkgconfig/druvelstek.pc" "$place/moved.pc"
# A file of another's, and one that a version before this put there.
pages=$prefix/share/doc/druvelstek
echo lib/libdruvelstek.so.0 >>"$pages/installed.txt"
touch "$prefix/lib/another.a" "$prefix/lib/libdruvelstek.so.0"
"$top/host/install" "$prefix"
cmp "$place/moved.pc" "$prefix/lib/pkgconfig/druvelstek.pc" || fail "a PREFIX that was moved to is another"
[ ! -e "$prefix/lib/libdruvelstek.so.0" ] || fail "host/install leaves what it put there before"
listed=$(sort "$pages/installed.txt")
found=$(cd "$prefix" && find . ! -type d ! -name another.a ! -name installed.txt -printf '%P\n' | sort)
[ "$listed" = "$found" ] || fail "host/install lists" $listed "and put there" $found
status=0
"$top/host/install" "$place/with a blank" 2>"$place/errors" || status=$?
[[ $status -eq 2 && $(cat "$place/errors") == *'cannot be a PREFIX'* && ! -e "$place/with a blank" ]] ||
    fail "a PREFIX with a blank ends with $status"

export PKG_CONFIG_PATH=$prefix/lib/pkgconfig

# tries_by PC FLAG..: the examples, linked as this file for pkg-config says, run on the samples beside them.
tries_by() {
    local pc=$1 name
    shift
    [ "$version" = "$(pkg-config --modversion "$pc")" ] || fail "pkg-config tells another version than the header"
    for name in example report; do
        "$cc" -std=c99 "${warnings[@]}" "$@" "$pages/examples/$name.c" $(pkg-config --cflags --libs "$pc") -o "$place/$name"
    done
    (cd "$pages/examples" && "${emulator[@]}" "$place/example" book.bin sheet.bin && "${emulator[@]}" "$place/report" book.bin run.bin) >/dev/null
}
tries_by druvelstek "${link[@]}"
echo "header: the installed examples link version $version by pkg-config"

# Under an emulator nothing shared is tried.
if [ ${#emulator[@]} -eq 0 ]; then
    tries_by druvelstek-shared -Wl,-rpath,"$prefix/lib"
    needed=$("$objdump" -p "$place/example" | awk '$1 == "NEEDED" { print $2 }')
    [[ $needed == *libdruvelstek.so.$version* ]] || fail "a host of the shared library needs" $needed
    (cd "$top/host" && "$cc" "${c99[@]}" $(sources "${compared[@]}") -Wl,-rpath,"$prefix/lib" \
        $(pkg-config --libs druvelstek-shared) -o "$place/compare")
    "$place/compare" 2
    echo "header: the shared library does what the archive does"
fi

"$top/host/install" --uninstall "$prefix"
left=$(cd "$prefix" && find . ! -type d -printf '%P\n')
[[ $left = lib/another.a && ! -e $pages ]] || fail "host/install --uninstall leaves" $left
status=0
"$top/host/install" --uninstall "$prefix" 2>"$place/errors" || status=$?
[[ $status -eq 2 && $(cat "$place/errors") == *'there is no'* ]] || fail "a second --uninstall ends with $status"
echo "header: host/install --uninstall takes away what was put there, and nothing else"
