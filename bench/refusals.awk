# The counted lines of bench/refusals to bench/REFUSALS.md.
# unprotect accepted POLICY BYTES SHAPE NUMBER COUNT, unprotect refused .., unprotect large .., find absent .., find first .., the policy 4 more with GCM
function words(shape) {
    gsub(/_/, " ", shape)
    return shape
}

function name(number) {
    split("LENGTH SHORT VERSION HEADER PROFILE ELEMENT LARGE ROOM STREAM ORDER WORN OLD REPEAT TAG KEYS POLICY TWICE FULL ABSENT", names, " ")
    return names[number]
}

# A policy with its suite, in a table and in a sentence.
function kind(p) {
    return p < 4 ? p : "GCM, " p - 4
}

function under(p) {
    return p < 4 ? " under policy " p : " with GCM under policy " p - 4
}

# Rounded so that what is below 1 does not look like 1.
function ratio(r) {
    return sprintf(r < 1 && r >= 0.995 ? "%.4f" : "%.2f", r)
}

$1 == "library" { library = $2 }
$2 == "accepted" { accepted[$3, $4, $5] = $7; if (!($4 in known)) { known[$4] = 1; lengths[++several] = $4 } if (!($5 in listed)) { listed[$5] = 1; shapes[++kinds] = $5 } }
$2 == "refused" { refusals++; at[refusals] = $0 }
$2 == "large" { large[$3, $5] = $7; number[$3, $5] = $6 }
$1 == "find" { found[$2, $5] = $7; datagram = $4 }

# The dearest refusal for each policy and length, beside the ordinary packet; and beside the packet of its own shape.
function judge(i, f, ordinary, own) {
    split(at[i], f, " ")
    ordinary = f[7] / accepted[f[3], f[4], "ordinary"]
    if (ordinary > most[f[3], f[4]]) { most[f[3], f[4]] = ordinary; which[f[3], f[4]] = name(f[6]) ", " words(f[5]); count[f[3], f[4]] = f[7] }
    if (ordinary > top) { top = ordinary; where = name(f[6]) under(f[3]) ", " f[4] " bytes, " words(f[5]) }
    if (f[6] == 14) tag[f[3], f[4], f[5]] = ordinary
    else if (ordinary > other) { other = ordinary; there = name(f[6]) under(f[3]) ", " f[4] " bytes, " words(f[5]) }
    if ((f[3], f[4], f[5]) in accepted) {
        own = f[7] / accepted[f[3], f[4], f[5]]
        if (own > best) { best = own; place = name(f[6]) under(f[3]) ", " f[4] " bytes, " words(f[5]) }
    }
}

END {
    for (i = 1; i <= refusals; i++)
        judge(i)
    print "# What a refusal costs\n"
    print "Written by `bench/refusals`; do not edit. Instructions inside one call of unprotect, counted by callgrind; library file " library ".\n"
    print "A receiver with 32 streams gets forged packets of its last one. The ordinary packet has a header of 12 bytes and a payload. The others have 15 contributors, or"
    print "a header extension that fills the packet, or both: elements with a one-byte or a two-byte header, padding zeros, or a tag that has no elements. \"Clear\" is sent"
    print "without Cryptex, also to a receiver that uses it. Bytes are with the tag.\n"
    printf "Over %d refused packets of up to 2,048 bytes, under all policies of both suites:\n\n", refusals
    printf "- Beside an accepted ordinary packet of the same length, policy and suite the dearest refusal costs **%s** (%s); the dearest but TAG %s (%s).\n", ratio(top), where, ratio(other), there
    printf "- Beside an accepted packet of its own shape, policy, suite and length it costs **%s** (%s): where nothing is encrypted, the tag is nearly all the work.\n\n", ratio(best), place
    print (top < 1 && best < 1) ? "So no refusal here costs as much as an accepted packet of its length, policy and suite, of the ordinary shape or its own.\n" : "**So a refusal can cost more than an accepted packet of its length, policy and suite.**\n"
    print "## The dearest refusal beside an ordinary packet\n"
    print "| Bytes | Policy | Accepted | Refused | Ratio | Which |\n|---:|---:|---:|---:|---:|---|"
    for (l = 1; l <= several; l++)
        for (p = 0; p < 7; p++)
            if ((p, lengths[l], "ordinary") in accepted)
                printf "| %d | %s | %d | %d | %.2f | %s |\n", lengths[l], kind(p), accepted[p, lengths[l], "ordinary"], count[p, lengths[l]], most[p, lengths[l]], which[p, lengths[l]]
    print "\n## A wrong tag, by shape, at 210 and 2,048 bytes, beside an ordinary packet\n"
    print "Policy, with GCM or without, and bytes.\n"
    print "| Shape | 0, 210 | 1, 210 | 2, 210 | 3, 210 | GCM 0, 210 | GCM 1, 210 | GCM 2, 210 | 0, 2048 | 1, 2048 | 2, 2048 | 3, 2048 | GCM 0, 2048 | GCM 1, 2048 | GCM 2, 2048 |"
    print "|---|---:|---:|---:|---:|---:|---:|---:|---:|---:|---:|---:|---:|---:|---:|"
    for (k = 1; k <= kinds; k++) {
        printf "| %s |", words(shapes[k])
        for (n = 210; n <= 2048; n += 1838)
            for (p = 0; p < 7; p++)
                printf (p, n, shapes[k]) in tag ? " %.2f |" : " |", tag[p, n, shapes[k]]
        print ""
    }
    print "\n## Datagrams of " datagram " bytes\n"
    print "Too large for any policy. Under the mask ELEMENT comes before LARGE, so that the elements are read first; finding has no LARGE, and reads them too. Beside the"
    print "longest packet that is accepted, of 2,048 bytes, ordinary, under the mask.\n"
    print "| Shape | unprotect, mask | Ratio | find, absent | Ratio | find, there | Ratio |\n|---|---:|---:|---:|---:|---:|---:|"
    for (k = 1; k <= kinds; k++) {
        s = shapes[k]
        longest = accepted[3, 2048, "ordinary"]
        printf "| %s | %d | %.1f | %d | %.1f | %d | %.1f |\n", words(s), large[3, s], large[3, s] / longest, found["absent", s], found["absent", s] / longest, found["first", s], found["first", s] / longest
        if (large[3, s] > dearest) dearest = large[3, s]
        for (w = 1; w <= 2; w++)
            if (found[w == 1 ? "absent" : "first", s] > sought) sought = found[w == 1 ? "absent" : "first", s]
    }
    printf "\nThe dearest unprotect costs %.1f times the longest accepted packet, and the dearest find %.1f times that unprotect. A sender needs 32 times the bytes for it. Who\n", dearest / longest, sought / dearest
    print "wants it cheaper drops datagrams over 2,048 bytes before the calls."
}
