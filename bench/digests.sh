#!/bin/sh
# How fast the digests are, beside plain C and OpenSSL. Run it anywhere in the repository.
# It wants rt and gcc, and takes clang and OpenSSL's libcrypto (on Debian: apt-get install libssl-dev) where they are.
# The tables of OpenSSL without its special instructions come from more runs of the same program: OPENSSL_ia32cap, which
# libcrypto reads as it starts, hides them from it.
set -eu
cd "$(dirname "$0")/.."
out=target/bench
mkdir -p "$out"
sh tools/staticlib >"$out/staticlib.log" 2>&1 || { cat "$out/staticlib.log"; exit 1; }
flags='' objects=''
for file in plain_sha256 plain_keccak; do
    gcc -O3 -DSUFFIX=gcc -c "bench/$file.c" -o "$out/$file-gcc.o"
    objects="$objects $out/$file-gcc.o"
    if command -v clang >/dev/null; then
        clang -O3 -DSUFFIX=clang -c "bench/$file.c" -o "$out/$file-clang.o"
        objects="$objects $out/$file-clang.o"
    fi
done
if command -v clang >/dev/null; then flags="$flags -DHAVE_CLANG"; else echo 'no clang: the plain C is gcc alone'; fi
libs=''
if echo '#include <openssl/evp.h>' | gcc -E - >/dev/null 2>&1; then
    flags="$flags -DHAVE_OPENSSL" libs=-lcrypto
else
    echo 'no OpenSSL headers: it is left out (on Debian: apt-get install libssl-dev)'
fi
if nm target/staticlib/libcapi.a | grep -q ' T dilpako_sha3_256$'; then flags="$flags -DHAVE_SHA3"; fi
# the words of flags, objects and libs are separate
# shellcheck disable=SC2086
gcc -O2 $flags bench/digests.c $objects target/staticlib/libcapi.a $libs -o "$out/digests"
gcc --version | head -n 1
if command -v clang >/dev/null; then clang --version | head -n 1; fi
grep -m 1 'model name' /proc/cpuinfo || true
if [ -n "$libs" ]; then
    openssl version 2>/dev/null || true
    echo
    echo '== OpenSSL with all instructions of this processor'
    "$out/digests"
    echo
    echo '== OpenSSL without the SHA instructions'
    OPENSSL_ia32cap=':~0x20000000' "$out/digests"
    echo
    echo '== OpenSSL without the SHA instructions, SSSE3, AVX, AVX2, AVX-512 and BMI: with those of every x86-64, as the library and the plain C'
    OPENSSL_ia32cap='~0x1000020000000000:~0x20010128' "$out/digests"
else
    "$out/digests"
fi
