# What report.awk and plot.awk share: the libraries in their order, and the figures of the measured lines.
BEGIN {
    engines = split("ours own debian openssl", engine, " ")
    title["ours"] = "this library"
    title["own"] = "libsrtp, its own ciphers (a)"
    title["debian"] = "libsrtp, Debian's package (b)"
    title["openssl"] = "libsrtp with OpenSSL (c)"
    # Measured with GCM alone, and so not in that row.
    title["soft"] = "libsrtp with OpenSSL, without the processor's AES and carry-less multiply (d)"
    sizes = split("40 100 200 400 800 1200 1400", size, " ")
    policies = split("0 1 3", policy, " ")
    gcms = split("gcm0 gcm1", gcm, " ")
    ways = split("protect unprotect", way, " ")
}

$1 == "date" { date = substr($0, 6) }
$1 == "processor" { processor = substr($0, 11) }
$1 == "compiler" { compiler = substr($0, 10) }
$1 == "library" { library = $2 }
$1 == "load" { loads = loads (loads ? " and " : "") $2 }
$1 == "engine" { here[$2] = 1; about[$2] = substr($0, length($2) + 9) }
$1 == "effort" { rounds = $2; packets = $3 }
$1 == "cell" { ns[$2, $3, $4, $5] = $6; fastest[$2, $3, $4, $5] = $7; ratio[$2, $3, $4, $5] = $9; low[$2, $3, $4, $5] = $10; high[$2, $3, $4, $5] = $11 }
$1 == "streams" { streams[$2, $3] = $4; streams_low[$2, $3] = $5; streams_high[$2, $3] = $6 }
$1 == "hostile" { hostile[++hostiles] = $0 }
$1 == "instructions" { counted[$2, $3, $4] = $5 }
