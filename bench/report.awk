# bench/RESULTS.md from the measured lines (with names.awk).

# Packets a second, with a comma between thousands.
function rate(nanoseconds,    digits, text) {
    digits = sprintf("%d", 1e9 / nanoseconds)
    text = ""
    while (length(digits) > 3) {
        text = "," substr(digits, length(digits) - 2) text
        digits = substr(digits, 1, length(digits) - 3)
    }
    return digits text
}

function print_head(    e) {
    print "# How fast the library is\n"
    print "Written by `bench/run`; do not edit. " date ", " processor ", one core; " compiler "; library file " library ".\n"
    print "The load of the machine was " loads " before and after (1 is this program alone). Under load all times grow, and not alike for every library, so the ratios are"
    print "best read from a quiet machine. Each library's own fastest round is disturbed least.\n"
    print "Rounds of " packets " packets, " rounds " for each line; a round goes through every line before the next begins. In every round a line's packets go through all"
    print "libraries in turn, each in a fresh session that is made before the clock (the thread's processor time) starts. A ratio is a library's time over ours in"
    print "the same round: the median, and the smallest and largest round. Over 1, this library is faster. In the same run every peer sends the same bytes as this"
    print "library (policies 0 and 3, and 0 with GCM), and every packet is given back.\n"
    for (e = 2; e <= engines; e++)
        print "- " title[engine[e]] ": " (engine[e] in here ? about[engine[e]] : "**not measured**, it could not be had")
    print "- " title["soft"] ": " ("soft" in here ? about["soft"] : "**not measured**, it could not be had")
    print "\n(a) and (c) are built from Debian's source with its default flags; (b) is Debian's package libsrtp2-1, which uses NSS; (c) uses the processor's AES and SHA"
    print "instructions through OpenSSL. libsrtp 2.5.0 has no Cryptex: beside policy 1 it does PLAIN SRTP on the same packets. Packets of policies 1 and 3 have a header"
    print "extension with three elements; under policy 3 two of them are encrypted.\n"
    print "With GCM (AEAD_AES_128_GCM) there is no (a): libsrtp's own ciphers do not have it. The peer without the processor's help is (d): (c) in a process of its own where"
    print "OpenSSL is told, by the variable OPENSSL_ia32cap, that the processor has neither AES nor carry-less multiply, wide or not. It still has vector instructions. This"
    print "library is measured there again, so that a ratio is of one round too.\n"
    print "![Time for a packet](result.svg)\n"
}

# The sizes of one call and policy that fall short of a goal, with their figures; lines, short, worst and the like go on over the whole goal.
function misses(name, p, w, least, smallest, largest,    s, r, quiet, text) {
    for (s = 1; s <= sizes; s++) {
        if (size[s] < smallest || size[s] > largest)
            continue
        r = ratio[p, w, size[s], name]
        lines++
        if (r < least) {
            short++
            text = text (text ? ", " : "") figure(r, least) " at " size[s]
        }
        if (r < worst) {
            worst = r
            where = w ", policy " p ", " size[s] " bytes"
        }
        quiet = fastest[p, w, size[s], name] / fastest[p, w, size[s], "ours"]
        quiet_short += quiet < least
        if (quiet < quiet_worst)
            quiet_worst = quiet
    }
    return text
}

# Prints whether a goal is met by the medians, and keeps where it is not.
function judge(name, text, least, smallest, largest,    p, w, missed, list) {
    if (!(name in here)) {
        print "| " text " | not measured | | |"
        return
    }
    worst = quiet_worst = 1e9
    lines = short = quiet_short = 0
    for (p = 1; p <= policies; p++)
        for (w = 1; w <= ways; w++) {
            missed = misses(name, policy[p], way[w], least, smallest, largest)
            if (missed)
                list = list "- " way[w] ", policy " policy[p] ": " missed "\n"
        }
    print "| " text " | " verdict(short) " | " figure(worst, least) (least < 1 ? " times its time" : " times as fast") " (" where ") | " \
        verdict(quiet_short) ", worst " figure(quiet_worst, least) " |"
    if (list)
        shortfalls = shortfalls "Short of *" text "*, " (least < 1 ? "our time over its time" : "its time over ours") " at bytes:\n\n" list "\n"
}

function verdict(missed) {
    return missed ? "**no**: " missed " of " lines " lines fall short" : "yes, in all " lines " lines"
}

# Beside a faster peer it is easier to read how many times its time we take. Rounded against us, so that no shortfall looks like the goal.
function figure(r, least) {
    return sprintf("%.2f", least < 1 ? int(100 / r + 0.999) / 100 : int(100 * r) / 100)
}

function print_goals() {
    print "## The goal\n"
    print "For the first suite, AES_CM_128_HMAC_SHA1_80.\n"
    print "| Goal | Met, by the median ratio | Worst line | Met, by each library's fastest round |\n|---|---|---|---|"
    judge("own", "at least 2.5 times as fast as (a)", 2.5, 0, 9999)
    judge("debian", "ahead of (b) at every size and policy", 1, 0, 9999)
    judge("openssl", "within 3.5 times of (c) at 1,200 bytes", 1 / 3.5, 1200, 1200)
    judge("openssl", "within twice of (c) at 200 bytes and less", 1 / 2, 0, 200)
    print "\n" shortfalls
}

function cell_text(p, w, s, name) {
    if (!((p, w, s, name) in ratio))
        return "-"
    return sprintf("%.2f (%.2f to %.2f)", ratio[p, w, s, name], low[p, w, s, name], high[p, w, s, name])
}

function print_policy(p,    w, s) {
    print "### Policy " p (p == 0 ? ", plain SRTP" : p == 1 ? ", Cryptex, beside libsrtp's plain SRTP" : ", encrypted elements") "\n"
    print "| Call | Bytes | Ours, ns | Packets a second | (a) own ciphers | (b) Debian | (c) OpenSSL |\n|---|---:|---:|---:|---|---|---|"
    for (w = 1; w <= ways; w++)
        for (s = 1; s <= sizes; s++)
            printf "| %s | %d | %.0f | %s | %s | %s | %s |\n", way[w], size[s], ns[p, way[w], size[s], "ours"], rate(ns[p, way[w], size[s], "ours"]),
                cell_text(p, way[w], size[s], "own"), cell_text(p, way[w], size[s], "debian"), cell_text(p, way[w], size[s], "openssl")
    print ""
}

function print_gcm(p,    w, s) {
    print "### GCM, " (p == "gcm0" ? "policy 0, plain SRTP" : "policy 1, Cryptex, beside libsrtp's plain SRTP") "\n"
    print "| Call | Bytes | Ours, ns | Packets a second | (b) Debian | (c) OpenSSL | (d) OpenSSL without the processor's |\n|---|---:|---:|---:|---|---|---|"
    for (w = 1; w <= ways; w++)
        for (s = 1; s <= sizes; s++)
            printf "| %s | %d | %.0f | %s | %s | %s | %s |\n", way[w], size[s], ns[p, way[w], size[s], "ours"], rate(ns[p, way[w], size[s], "ours"]),
                cell_text(p, way[w], size[s], "debian"), cell_text(p, way[w], size[s], "openssl"), cell_text(p, way[w], size[s], "soft")
    print ""
}

# The slowest of the policies, suites and calls at a size.
function slowest(s,    p, w, most) {
    for (w = 1; w <= ways; w++) {
        for (p = 1; p <= policies; p++)
            if (ns[policy[p], way[w], s, "ours"] > most)
                most = ns[policy[p], way[w], s, "ours"]
        for (p = 1; p <= gcms; p++)
            if (ns[gcm[p], way[w], s, "ours"] > most)
                most = ns[gcm[p], way[w], s, "ours"]
    }
    return most
}

# A policy, with its suite where that is the second.
function mode_text(m) {
    return m ~ /^gcm/ ? "GCM, " substr(m, 4) : m
}

function print_need(    s, need) {
    need = 32 * 2 * 50
    print "## What the desk needs\n"
    print "Assumed: 32 musicians, two routes, a packet every 20 ms on each: 32 x 2 x 50 = 3,200 packets a second to unprotect.\n"
    print "| Bytes | One core, packets a second (slowest call, policy and suite) | Times the need |\n|---:|---:|---:|"
    for (s = 1; s <= sizes; s++)
        printf "| %d | %s | %d |\n", size[s], rate(slowest(size[s])), 1e9 / slowest(size[s]) / need
    print ""
}

function print_streams(    n) {
    print "## As streams grow\n"
    print "Packets of 200 bytes, policy 0, of the stream that was added last; nanoseconds, median (smallest to largest round).\n"
    print "| Streams | Protect | Unprotect |\n|---:|---|---|"
    for (n = 1; n <= 32; n *= 2)
        printf "| %d | %.0f (%.0f to %.0f) | %.0f (%.0f to %.0f) |\n", n, streams[n, "protect"], streams_low[n, "protect"], streams_high[n, "protect"],
            streams[n, "unprotect"], streams_low[n, "unprotect"], streams_high[n, "unprotect"]
    print ""
}

function print_hostile(    i, f, each, dearest, dearest_byte, name) {
    print "## Hostile packets\n"
    print "Unprotect of a packet that is refused, beside one of the same policy and suite that is accepted, in a session of 32 streams; bytes with the tag. The accepted packet has"
    print "the same length where that can be: SHORT stands beside the shortest and LARGE beside the longest that can be accepted. Where elements are read, the whole"
    print "packet is elements.\n"
    print "| Refused with | Policy | Bytes | Refused, ns | Accepted, bytes | Accepted, ns | Refused / accepted | for each byte |\n|---|---:|---:|---:|---:|---:|---|---:|"
    for (i = 1; i <= hostiles; i++) {
        split(hostile[i], f, / +/)
        each = f[8] * f[5] / f[4]
        printf "| %s | %s | %d | %.0f | %d | %.0f | %.3f (%.3f to %.3f) | %.3f |\n", f[2], mode_text(f[3]), f[4], f[6], f[5], f[7], f[8], f[9], f[10], each
        if (f[8] > dearest) {
            dearest = f[8]
            name = sprintf("%s under policy %s at %d bytes", f[2], mode_text(f[3]), f[4])
        }
        if (each > dearest_byte)
            dearest_byte = each
    }
    printf "\nThe dearest refusal (%s) takes %.2f times an accepted packet's time; for each byte, none takes more than %.2f.\n\n", name, dearest, dearest_byte
    if (dearest > 1) {
        print "So one refusal is dearer than an accepted packet. Under the mask, ELEMENT (6) comes before LARGE (7), so a packet of any length is read to its last element"
        print "before it is called too large. A sender needs 32 times the bytes for it. Who wants it cheaper drops datagrams over 2,048 bytes before the call.\n"
    }
}

function print_counted(p, bytes) {
    printf "| %s | %d | %d | ", mode_text(p), bytes, counted["ours", p, bytes]
    if (("own", p, bytes) in counted)
        printf "%d | %.2f |\n", counted["own", p, bytes], counted["own", p, bytes] / counted["ours", p, bytes]
    else
        print "- | - |"
}

function print_instructions(    i, s) {
    print "## Instructions\n"
    if (!(("ours", 0, 40) in counted)) {
        print "Not counted: valgrind is absent."
        return
    }
    print "Counted by callgrind for one call of protect.\n"
    print "| Policy | Bytes | Ours | (a) own ciphers | (a) / ours |\n|---:|---:|---:|---:|---:|"
    split("40 200 1200", s, " ")
    for (i = 1; i <= 3; i++)
        print_counted(0, s[i])
    for (i = 1; i <= 3; i++)
        print_counted(3, s[i])
    for (i = 1; i <= 3; i++)
        print_counted("gcm0", s[i])
    printf "\nEach byte more costs this library %.1f instructions", (counted["ours", 0, 1200] - counted["ours", 0, 200]) / 1000
    if (("own", 0, 40) in counted)
        printf ", and (a) %.1f", (counted["own", 0, 1200] - counted["own", 0, 200]) / 1000
    printf "; with GCM this library %.1f.\n", (counted["ours", "gcm0", 1200] - counted["ours", "gcm0", 200]) / 1000
}

END {
    print_head()
    print_goals()
    print "## Packets\n"
    for (i = 1; i <= policies; i++)
        print_policy(policy[i])
    for (i = 1; i <= gcms; i++)
        print_gcm(gcm[i])
    print_need()
    print_streams()
    print_hostile()
    print_instructions()
}
