# The script beside its answers, in words: for people. First file: the answers. Second: the script.
function short(hex) { return length(hex) <= 60 ? hex : substr(hex, 1, 56) ".." }
function shown(hex, n) { return n == 0 ? "-" : short(substr(hex, 1, 2 * n)) }
function refused(n) { return "refused with " n ", " name[n] }
function told(call, a, w, k) {
    k = split(a, w, " ")
    if (a == "?") return "cannot be read"
    if (call == "make") return w[1] == 0 ? "made" : refused(w[1])
    if (call == "add") return w[1] == 0 ? "added" : refused(w[1])
    if (call == "protect") return w[1] == 0 ? w[2] " bytes to send: " shown(w[3], w[2]) : refused(w[1])
    if (call == "unprotect") return w[1] == 0 ? "given back, " w[2] " bytes: " shown(w[3], w[2]) : refused(w[1])
    if (call == "stretch") return w[1] == 0 ? "done: " short(w[2]) : refused(w[1])
    return a
}
function asked(w) {
    if (w[1] == "make") return "make session " w[2] ", policy " w[5] (w[7] == "gcm" ? ", with AES-GCM" : "")
    if (w[1] == "add") return "add stream " w[3] (w[4] == "s" ? " to send" : " to receive") " in session " w[2]
    if (w[1] == "protect") return "protect in session " w[2] ", " w[3] " bytes: " shown(w[4], w[3])
    if (w[1] == "unprotect") return "unprotect in session " w[2] ", " w[3] " bytes: " shown(w[4], w[3])
    if (w[1] == "stretch") return "keystream of stream " w[4] ", index " w[5] ", from byte " w[6] " on, over " short(w[7])
    return $0
}
BEGIN {
    split("LENGTH SHORT VERSION HEADER PROFILE ELEMENT LARGE ROOM STREAM ORDER WORN OLD REPEAT TAG KEYS POLICY TWICE FULL ABSENT", name, " ")
}
NR == FNR { answer[FNR] = $0; next }
/^$/ { next }
/^#/ { print "\n  " substr($0, 3); next }
/^case / { at++; print "\n== " substr($0, 6); next }
{
    split($0, w, " ")
    print "    " asked(w)
    print "      -> " told(w[1], answer[++at])
}
