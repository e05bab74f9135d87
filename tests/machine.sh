# The programs and the archive are for x86-64. On an Arm machine they are run by an emulator, and C, C++ and Rust are compiled for x86-64.
# This file knows how, so that no other does. Sourced by scripts, in the repository's top folder.
#   runnable PROGRAM    prints what to run in place of a program that rt built, or of one compiled here
#   missing_packages    prints the packages of Debian that all tests need and this machine lacks
#   CC, CXX, CARGO      what compiles C, C++ and Rust; cargo puts what it builds below $BUILT

has() { command -v "$1" > /dev/null; }

if [ "$(uname -m)" = x86_64 ]; then
    CC=gcc CXX=g++ CARGO=cargo BUILT=rust/target
    wanted=('python3 python3' 'gcc gcc' 'g++ g++' 'cargo cargo')
    runnable() { printf '%s\n' "$1"; }
else
    CC=x86_64-linux-gnu-gcc CXX=x86_64-linux-gnu-g++ CARGO=/usr/bin/cargo BUILT=rust/target/x86_64-unknown-linux-gnu
    wanted=('python3 python3' "$CC gcc-x86-64-linux-gnu" "$CXX g++-x86-64-linux-gnu" 'qemu-x86_64-static qemu-user-static'
            '/usr/bin/cargo cargo-web' '/usr/lib/rustlib/x86_64-unknown-linux-gnu/lib libstd-rust-web-dev:amd64')
    export RUSTC=/usr/bin/rustc RUSTDOC=/usr/bin/rustdoc CARGO_BUILD_TARGET=x86_64-unknown-linux-gnu
    export CARGO_TARGET_X86_64_UNKNOWN_LINUX_GNU_LINKER=$CC CARGO_TARGET_X86_64_UNKNOWN_LINUX_GNU_RUNNER=qemu-x86_64-static

    # A script in target/run. An emulator takes the numbers of closed descriptors for its own files, so these are opened the wrong way round:
    # a read or write of them fails as one of a closed descriptor does.
    runnable() {
        local program script libraries words
        program=$(realpath "$1") script=target/run/$(basename "$1")
        libraries=$(dirname "$(rt doc)")/toolchain/lib
        case $1 in
        crates/*) words=(qemu-x86_64-static "$libraries/ld-linux-x86-64.so.2" --library-path "$libraries" "$program") ;;
        *) words=(qemu-x86_64-static "$program") ;;
        esac
        mkdir -p target/run
        {
            echo '#!/bin/sh'
            echo '[ -e /proc/self/fd/0 ] || exec 0> /dev/null'
            echo '[ -e /proc/self/fd/1 ] || exec 1< /dev/null'
            echo '[ -e /proc/self/fd/2 ] || exec 2< /dev/null'
            printf 'exec'
            printf ' %q' "${words[@]}"
            echo ' "$@"'
        } > "$script"
        chmod +x "$script"
        realpath "$script"
    }
fi

missing_packages() {
    local pair
    for pair in "${wanted[@]}"; do
        has "${pair% *}" || [ -d "${pair% *}" ] || printf ' %s' "${pair#* }"
    done
}
