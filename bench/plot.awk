# bench/result.svg from the measured lines (with names.awk): microseconds for a packet of the first suite over its length, both on scales of doubling, so that
# the same ratio is the same distance everywhere.

function log2(x) {
    return log(x) / log(2)
}

# From 32 to 2,048 bytes, and from 1/4 to 32 microseconds.
function across(bytes) {
    return left + 240 * (log2(bytes) - 5) / 6
}

function down(nanoseconds) {
    return top + 210 * (5 - log2(nanoseconds / 1000)) / 7
}

function text(x, y, anchor, words) {
    printf "<text x=\"%.1f\" y=\"%.1f\" text-anchor=\"%s\">%s</text>\n", x, y, anchor, words
}

function line(x, y, to_x, to_y, colour) {
    printf "<line x1=\"%.1f\" y1=\"%.1f\" x2=\"%.1f\" y2=\"%.1f\" stroke=\"%s\"/>\n", x, y, to_x, to_y, colour
}

function grid(    k, s) {
    for (k = -2; k <= 5; k++) {
        line(left, down(1000 * 2 ^ k), left + 240, down(1000 * 2 ^ k), "#dddddd")
        text(left - 6, down(1000 * 2 ^ k) + 4, "end", 2 ^ k)
    }
    for (s = 1; s <= sizes; s++) {
        line(across(size[s]), top, across(size[s]), top + 210, "#eeeeee")
        # The last two lie close together.
        if (size[s] != 1200)
            text(across(size[s]), top + 224, "middle", size[s])
    }
}

function curve(p, w, name,    s, points) {
    for (s = 1; s <= sizes; s++)
        points = points sprintf("%.1f,%.1f ", across(size[s]), down(ns[p, w, size[s], name]))
    printf "<polyline fill=\"none\" stroke=\"%s\" stroke-width=\"2\" points=\"%s\"/>\n", colour[name], points
    for (s = 1; s <= sizes; s++)
        printf "<circle cx=\"%.1f\" cy=\"%.1f\" r=\"2.5\" fill=\"%s\"/>\n", across(size[s]), down(ns[p, w, size[s], name]), colour[name]
}

function panel(p, w, column, row,    e) {
    left = 60 + 300 * column
    top = 90 + 270 * row
    text(left, top - 8, "start", w ", policy " p (p == 1 ? " (libsrtp: plain SRTP)" : ""))
    grid()
    for (e = engines; e >= 1; e--)
        if (engine[e] in here)
            curve(p, w, engine[e])
}

function legend(    e, x) {
    x = 60
    for (e = 1; e <= engines; e++)
        if (engine[e] in here) {
            printf "<rect x=\"%d\" y=\"48\" width=\"14\" height=\"6\" fill=\"%s\"/>\n", x, colour[engine[e]]
            text(x + 20, 55, "start", title[engine[e]])
            x += 220
        }
}

END {
    colour["ours"] = "#c0392b"
    colour["own"] = "#2c6fbb"
    colour["debian"] = "#7f8c8d"
    colour["openssl"] = "#27966a"
    print "<svg xmlns=\"http://www.w3.org/2000/svg\" width=\"960\" height=\"640\" font-family=\"sans-serif\" font-size=\"12\">"
    print "<rect width=\"960\" height=\"640\" fill=\"white\"/>"
    gsub(/&/, "\\&amp;", processor)
    gsub(/</, "\\&lt;", processor)
    text(60, 26, "start", "Microseconds for a packet over its bytes, AES_CM_128_HMAC_SHA1_80, both scales doubling. " date ", " processor)
    legend()
    for (p = 1; p <= policies; p++)
        for (w = 1; w <= ways; w++)
            panel(policy[p], way[w], p - 1, w - 1)
    print "</svg>"
}
