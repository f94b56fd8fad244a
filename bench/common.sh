# What bench/run, bench/soak, bench/refusals and bench/stack share; they source it at the repository's root.
build=target/bench
library=target/staticlib/libdelugash.a

fail() {
    echo "$*" >&2
    exit 2
}

# The proved library for C, built where it is absent.
need_library() {
    if [ ! -f "$library" ]; then
        command -v rt >/dev/null 2>&1 || fail "$library is absent, and so is the command 'rt' that proves and builds it"
        echo "proving and building the library: tests/library" >&2
        tests/library >&2 || fail "tests/library failed"
    fi
    [ -f include/delugash.h ] || fail "include/delugash.h is missing"
}

# compile PROGRAM WORD...: a program under target/bench; the words are its sources and further flags.
compile() {
    program=$1
    shift
    command -v gcc >/dev/null 2>&1 || fail "gcc is missing"
    mkdir -p "$build" || fail "cannot make the folder $build"
    gcc -std=c11 -O2 -g -Wall -Wextra -Werror -Iinclude -o "$build/$program" "$@" || fail "could not compile $program"
}
