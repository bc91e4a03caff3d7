# x86.sh: sourced, at the repository's root, by what builds for x86-64 and runs it on whatever processor this is: with
# the kit's clang, lld and C library, and on another processor with a qemu of the PATH. Its log is $out/log; $out is the
# caller's folder.
machine=$(uname -m)
triple=x86_64-unknown-linux-gnu
kit=$(dirname "$(dirname "$(readlink -f "$(command -v rt)")")")
tools=$kit/toolchain/bin
c_library=$kit/toolchain/lib
qemu=$(command -v qemu-x86_64) || qemu=

say() { tail -40 "$out/log" >&2; exit 1; }

# x86_clang WORDS..: the kit's clang for plain x86-64
x86_clang() { "$tools/clang" --target=$triple -march=x86-64 --no-default-config "$@" 2>"$out/log" || say; }

# x86_headers FOLDER: what host/ uses of C's headers, which the kit has none of
x86_headers() {
    mkdir -p "$1"
    cat >"$1/stddef.h" <<'C'
typedef __SIZE_TYPE__ size_t;
#define offsetof(type, member) __builtin_offsetof(type, member)
C
    for bits in 16 32 64; do
        echo "typedef __INT${bits}_TYPE__ int${bits}_t; typedef __UINT${bits}_TYPE__ uint${bits}_t;"
    done >"$1/stdint.h"
    cat >"$1/string.h" <<'C'
#include <stddef.h>
int memcmp(const void *, const void *, size_t);
void *memcpy(void *restrict, const void *restrict, size_t);
C
    cat >"$1/stdlib.h" <<'C'
#include <stddef.h>
void *malloc(size_t);
void free(void *);
_Noreturn void exit(int);
C
    echo 'int printf(const char *restrict, ...);' >"$1/stdio.h"
    cat >"$1/unistd.h" <<'C'
#include <stddef.h>
long read(int, void *, size_t);
long write(int, const void *, size_t);
C
}

# x86_link PROGRAM FILES..: a program over the kit's C library
x86_link() {
    program=$1
    shift
    "$tools/ld.lld" -pie --dynamic-linker /lib64/ld-linux-x86-64.so.2 -o "$program" \
        "$c_library/Scrt1.o" "$c_library/crti.o" "$c_library/crtbeginS.o" "$@" \
        "$c_library/libc.so.6" "$c_library/libc_nonshared.a" "$c_library/libgcc.a" \
        "$c_library/crtendS.o" "$c_library/crtn.o" 2>"$out/log" || say
}

# x86_runner FILE: a script that runs a program for x86-64, under emulation where this is another processor
x86_runner() {
    if [ "$machine" = x86_64 ]; then
        printf '#!/bin/sh\nexec "$@"\n' >"$1"
    else
        printf '#!/bin/sh\nexec "%s" "%s" --library-path "%s" "$@"\n' \
            "$qemu" "$c_library/ld-linux-x86-64.so.2" "$c_library" >"$1"
    fi
    chmod +x "$1"
}

# rust_for_x86: a rustc that has the standard library for x86-64, if there is one
rust_for_x86() {
    for rustc in "${RUSTC:-rustc}" rustc /usr/bin/rustc; do
        folder=$("$rustc" --print target-libdir --target $triple 2>"$out/log") || continue
        for library in "$folder"/libstd-*.rlib; do
            [ ! -f "$library" ] || { command -v "$rustc"; return; }
        done
    done
}
