# How the library for C is built, and how a program for x86-64 is compiled and run on this processor. Sourced by install, model/run,
# examples/run, examples/stack and bench/run, and through tools/words.py by the scripts in Python. What they compile stands in target/.

# native_command PROGRAM: puts the words that run a program that rt built into the array `native`. On x86-64 it runs as it is; elsewhere
# under the system's emulator, with the toolchain's loader and C library where the toolchain is at hand.
native_command() {
    local rt libraries emulator
    native=("$1")
    [ "$(uname -m)" != x86_64 ] || return 0
    emulator=$(command -v qemu-x86_64) || {
        echo "$1 is for x86-64, and no emulator (qemu-x86_64) was found" >&2
        return 1
    }
    if rt=$(command -v rt); then
        libraries=$(dirname "$(readlink -f "$rt")")/../toolchain/lib
        if [ -x "$libraries/ld-linux-x86-64.so.2" ]; then
            native=("$libraries/ld-linux-x86-64.so.2" --library-path "$libraries" "$1")
        fi
    fi
    native=("$emulator" "${native[@]}")
}

# x86_64_compile PROGRAM WORDS..: compiles C for x86-64 into PROGRAM; names the compiler in `x86_64_cc`. Elsewhere than on x86-64 it is
# gcc for x86-64 from the system's packages (gcc-x86-64-linux-gnu), and the program is linked statically, to run under the emulator alone.
x86_64_compile() {
    local program=$1 static=()
    shift
    x86_64_cc=${CC:-cc}
    if [ "$(uname -m)" != x86_64 ]; then
        x86_64_cc=x86_64-linux-gnu-gcc
        static=(-static)
    fi
    if ! command -v "$x86_64_cc" >/dev/null; then
        echo "no $x86_64_cc: a C compiler for x86-64 is wanted, elsewhere than on x86-64 the package gcc-x86-64-linux-gnu" >&2
        return 1
    fi
    mkdir -p "$(dirname "$program")" && "$x86_64_cc" "${static[@]}" -o "$program" "$@"
}

# x86_64_command PROGRAM: puts the words that run a program of x86_64_compile into the array `native`, and how into `x86_64_how`. The
# emulator is told to leave out the fast byte copy (erms), which it runs byte by byte, so that the C library copies in words.
x86_64_command() {
    local emulator
    native=("$1")
    x86_64_how='Run natively'
    [ "$(uname -m)" != x86_64 ] || return 0
    emulator=$(command -v qemu-x86_64) || {
        echo "$1 is for x86-64, and no emulator (qemu-x86_64) was found" >&2
        return 1
    }
    native=("$emulator" -cpu 'max,-erms' "$1")
    x86_64_how="Compiled for x86-64 and run under an emulator ($("$emulator" --version | head -n 1)), so the ratios say more than the times"
}

# Where rt puts the library for C.
archive=crates/ozhimka/out/libozhimka.a

# older_than_crates FILE: whether a crate has changed since the file was made, by what is checked of crates.
older_than_crates() {
    [ -n "$(find crates.txt crates/*/src crates/*/specs crates/*/proofs -newer "$1" -print -quit)" ]
}

# archive_ready: builds the library for C unless it is newer than every crate; what rt says is shown only if that fails.
archive_ready() {
    local said=target/ozhimka.log
    [ ! -f "$archive" ] || older_than_crates "$archive" || return 0
    if ! command -v rt >/dev/null; then
        echo "no command rt, which builds $archive: the toolchain is wanted" >&2
        return 1
    fi
    [ ! -t 2 ] || echo "building $archive, which takes some minutes the first time" >&2
    mkdir -p target || return 1
    if ! (cd crates/ozhimka && rt lib) >"$said" 2>&1 || [ ! -f "$archive" ]; then
        cat "$said" >&2
        return 1
    fi
    touch "$archive"
}

# program_ready NAME: the same for a program, which `rt run` builds and then runs, here on no input.
program_ready() {
    local program=crates/$1/out/$1
    [ ! -x "$program" ] || older_than_crates "$program" || return 0
    (cd "crates/$1" && rt run </dev/null >&2) && [ -x "$program" ] && touch "$program"
}
