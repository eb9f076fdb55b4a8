# The jumps of an object, from objdump -h -d, a line each: the section's offset in the file and the place in the section,
# both in hexadecimal, the bytes before the one that has the condition, that byte, and the function. A jump's condition is
# turned round by the lowest bit of that byte.
$2 ~ /^\.text/ && NF == 7 { offset[$2] = $6 }
/^Disassembly of section/ { section = $4; sub(/:$/, "", section) }
/^[0-9a-f]+ <.*>:$/ { name = $2 }
$1 ~ /:$/ && ($2 ~ /^7[0-9a-f]$/ || ($2 == "0f" && $3 ~ /^8[0-9a-f]$/)) {
    at = $1; sub(":", "", at)
    print offset[section], at, ($2 == "0f" ? 1 : 0), ($2 == "0f" ? $3 : $2), name
}
