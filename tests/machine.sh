# shellcheck shell=sh
# What the scripts need of this machine and of the toolchain; read in by `. tests/machine.sh` at the top of the repository.
# The toolchain runs on x86-64 Linux and compiles for it. CC compiles the C.

# need_rt: fails where the toolchain is missing, and tells how to get it
need_rt() {
    command -v rt >/dev/null && return
    cat >&2 <<'MISSING'
rt, the command of the Rattle toolchain, is not on the PATH.
Unpack the Rattle kit (for Linux on x86-64) and put its folder bin on the PATH:
    export PATH=/path/to/the/kit/bin:$PATH
MISSING
    return 1
}

# need COMMAND PACKAGE...: fails where a command is missing and its Debian packages can't be installed
need() {
    command -v "$1" >/dev/null && return
    wanted=$1
    shift
    { apt-get update -qq && DEBIAN_FRONTEND=noninteractive apt-get install -y -qq "$@"; } >/dev/null 2>&1 &&
        command -v "$wanted" >/dev/null && return
    echo "$wanted is missing. Install it; on Debian: apt-get install $*" >&2
    return 1
}

# need_cc: a compiler for C
need_cc() {
    need "${CC:-cc}" gcc libc6-dev
}

# prove CRATE: proves it over what lies below it, and tells how many axioms it rests on
prove() {
    (cd "crates/$1" && rt check)
}

# archive NAME: proves and builds the library that C links, target/staticlib/libNAME.a, of the crate NAME_c
archive() {
    (cd "crates/$1_c" && rt lib) && mkdir -p target/staticlib &&
        cp "crates/$1_c/out/lib$1_c.a" "target/staticlib/lib$1.a"
}

# program NAME: proves and builds target/bin/NAME. rt runs what it has built; here it gets no input, and its output is dropped
program() {
    (cd "crates/$1" && rt run </dev/null >/dev/null) && mkdir -p target/bin && cp "crates/$1/out/$1" "target/bin/$1"
}
