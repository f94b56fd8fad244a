# The measured lines of bench/stack to bench/STACK.md.
# library SUM, and for each suite and policy: SUITE POLICY PROTECT UNPROTECT FORGED REPEATED MAKE ADD FIND STRETCH
function thousands(n) {
    return n < 1000 ? n : int(n / 1000) "," sprintf("%03d", n % 1000)
}

$1 == "library" { library = $2; next }
{ for (i = 3; i <= NF; i++) bytes[kinds + 0, i - 2] = $i; kinds++ }

function row(what, column, kind) {
    printf "| %s |", what
    for (kind = 0; kind < kinds; kind++) printf " %s |", thousands(bytes[kind, column])
    printf "\n"
}

END {
    if (kinds != 7) exit 1
    print "# How much stack a call needs"
    print ""
    print "Written by `bench/stack`; do not edit. Bytes on x86-64, the most over packets of 12 to 2,034 bytes, with GCM to 2,028, with and without contributors and with"
    print "extensions of up to 1,900 bytes whose elements are listed; library file " library "."
    print ""
    print "A call runs on a stack of its own that was filled with a pattern, which is searched afterwards; what an empty call leaves there is taken off. No function is"
    print "recursive, and no frame has a size that depends on input."
    print ""
    print "| Call | policy 0 | 1 | 2 | 3 | GCM, policy 0 | 1 | 2 |"
    print "|---|---:|---:|---:|---:|---:|---:|---:|"
    row("protect", 1)
    row("unprotect", 2)
    row("unprotect, refused for its tag: the hash, and no cipher (with GCM one block of it)", 3)
    row("unprotect, refused as a repeat: neither", 4)
    row("make", 5)
    row("add", 6)
    row("find", 7)
    row("stretch, which knows neither policy nor suite", 8)
}
