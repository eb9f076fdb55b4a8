# Sourced by host/header: the archive, and the shared library too, exports the calls that the header declares, calls two
# functions of the C library, and has no state.
nm=${ar%ar}nm objdump=${ar%ar}objdump library=$made/libdruvelstek.a shared=$made/libdruvelstek.so
declared=$(sed -nE 's/^uint64_t (dv_[a-z_]+)\(.*/\1/p' "$top/include/druvelstek.h" | sort)
exported=$("$nm" -g --defined-only "$library" | awk '$2 == "T" { print $3 }' | sort)
[ "$declared" = "$exported" ] || fail "declares" $declared "and the archive exports" $exported
exported=$("$nm" -D --defined-only "$shared" | awk '{ print $3 }' | sort)
[ "$declared" = "$exported" ] || fail "declares" $declared "and the shared library exports" $exported
called=$("$nm" -u "$library" | awk '$1 == "U" { print $2 }' | sort -u)
[ "$called" = $'memcpy\nmemset' ] || fail "the archive calls" $called
called=$("$nm" -D -u "$shared" | awk '$1 == "U" { print $2 }' | sed 's/@.*//' | sort -u)
[ "$called" = $'memcpy\nmemset' ] || fail "the shared library calls" $called
sections=$("$objdump" -h -w "$library" | grep ALLOC)
! grep -v READONLY <<<"$sections" || fail "the archive has data that can be written, so that calls could share it"
# The linker's own are read again by nobody once the library is loaded.
sections=$("$objdump" -h -w "$shared" | grep ALLOC | grep -vE ' \.(dynamic|got|got\.plt) ')
! grep -v READONLY <<<"$sections" || fail "the shared library has data that can be written"
echo "header: $(wc -l <<<"$exported") calls, no data that can be written, memcpy and memset called"
