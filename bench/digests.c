// Compares the digests of the library with plain C and with OpenSSL: first their results on many lengths, then their speed.
// Compiled with -DHAVE_CLANG where a second compiler made the plain C, -DHAVE_OPENSSL where libcrypto is there,
// -DHAVE_SHA3 where the library has SHA3-256.
#include <stdint.h>
#include <stdio.h>
#include <stdlib.h>
#include <string.h>
#include <time.h>

#include "../include/dilpako.h"

typedef void digest(const uint8_t *bytes, size_t len, uint8_t out[32]);

digest plain_sha256_gcc, plain_sha256_clang, plain_sha3_256_gcc, plain_sha3_256_clang;

#ifdef HAVE_OPENSSL
#include <openssl/evp.h>

static const EVP_MD *md256, *md3;
static EVP_MD_CTX *context;

static void openssl_sha256(const uint8_t *bytes, size_t len, uint8_t out[32])
{
    EVP_DigestInit_ex(context, md256, NULL);
    EVP_DigestUpdate(context, bytes, len);
    EVP_DigestFinal_ex(context, out, NULL);
}

static void openssl_sha3_256(const uint8_t *bytes, size_t len, uint8_t out[32])
{
    EVP_DigestInit_ex(context, md3, NULL);
    EVP_DigestUpdate(context, bytes, len);
    EVP_DigestFinal_ex(context, out, NULL);
}
#endif

struct entry {
    const char *name;
    digest *run;
    double rate;
};

// Processor time, so that other programs disturb less.
static double now(void)
{
    struct timespec t;
    clock_gettime(CLOCK_PROCESS_CPUTIME_ID, &t);
    return (double)t.tv_sec + 1e-9 * (double)t.tv_nsec;
}

// The other ways to the same SHA-256: in three pieces, of a pair, and after a first block.
static void in_pieces(const uint8_t *bytes, size_t len, uint8_t out[32])
{
    dilpako_sha256_hasher hasher;
    dilpako_sha256_start(&hasher);
    dilpako_sha256_update(&hasher, bytes, len / 3);
    dilpako_sha256_update(&hasher, bytes + len / 3, len / 5);
    dilpako_sha256_update(&hasher, bytes + len / 3 + len / 5, len - len / 3 - len / 5);
    dilpako_sha256_finalize(&hasher, out);
}

static void as_pair(const uint8_t *bytes, size_t len, uint8_t out[32])
{
    dilpako_sha256_pair(bytes, len / 2, bytes + len / 2, len - len / 2, out);
}

static void after_block(const uint8_t *bytes, size_t len, uint8_t out[32])
{
    dilpako_sha256_midstate_t midstate;
    if (len < 64) {
        dilpako_sha256(bytes, len, out);
        return;
    }
    dilpako_sha256_midstate(&midstate, bytes);
    dilpako_sha256_after(&midstate, bytes + 64, len - 64, out);
}

// Every entry gives the same digest on all lengths up to 1,100 and on some longer ones.
static void compare(struct entry *all, int count, const uint8_t *bytes)
{
    for (size_t len = 0; len < 70000; len += len < 1100 ? 1 : 997) {
        uint8_t want[32], got[32];
        all[0].run(bytes + len % 7, len, want);
        for (int i = 1; i < count; i++) {
            all[i].run(bytes + len % 7, len, got);
            if (memcmp(want, got, 32) != 0) {
                printf("%s and %s differ at length %zu\n", all[0].name, all[i].name, len);
                exit(1);
            }
        }
    }
}

// The best of several runs of each entry, taken in turns, in bytes a second.
static void measure(struct entry *all, int count, const uint8_t *bytes, size_t len)
{
    size_t times = len >= 1 << 20 ? 1 : (1 << 19) / (len + 64);
    int turns = len >= 1 << 20 ? 10 : 60;
    for (int i = 0; i < count; i++)
        all[i].rate = 0;
    for (int turn = 0; turn < turns; turn++)
        for (int i = 0; i < count; i++) {
            uint8_t out[32];
            double start = now();
            for (size_t k = 0; k < times; k++)
                all[i].run(bytes, len, out);
            double rate = (double)len * (double)times / (now() - start);
            if (rate > all[i].rate)
                all[i].rate = rate;
        }
}

static void table(const char *title, struct entry *all, int count, const uint8_t *bytes)
{
    static const size_t lens[] = {32, 300, 4096, 64 << 20};
    static const char *const names[] = {"32 B", "300 B", "4 KiB", "64 MiB"};
    compare(all, count, bytes);
    printf("%s, MB/s\n%-8s", title, "length");
    for (int i = 0; i < count; i++)
        printf("%16s", all[i].name);
    printf("%16s%16s\n", "ours/plain C", "ours/OpenSSL");
    for (int row = 0; row < 4; row++) {
        measure(all, count, bytes, lens[row]);
        double plain = 0, openssl = 0;
        printf("%-8s", names[row]);
        for (int i = 0; i < count; i++) {
            printf("%16.1f", all[i].rate / 1e6);
            if (strncmp(all[i].name, "plain", 5) == 0 && all[i].rate > plain)
                plain = all[i].rate;
            if (strcmp(all[i].name, "OpenSSL") == 0)
                openssl = all[i].rate;
        }
        printf("%16.2f", all[0].rate / plain);
        if (openssl > 0)
            printf("%16.2f\n", all[0].rate / openssl);
        else
            printf("%16s\n", "-");
    }
}

int main(void)
{
    size_t size = (64 << 20) + 16;
    uint8_t *bytes = malloc(size);
    if (bytes == NULL)
        return 1;
    for (size_t i = 0; i < size; i++)
        bytes[i] = (uint8_t)(i * 2654435761u >> 11);
    struct entry two[] = {
        {"ours", dilpako_sha256, 0},
        {"plain C, gcc", plain_sha256_gcc, 0},
#ifdef HAVE_CLANG
        {"plain C, clang", plain_sha256_clang, 0},
#endif
#ifdef HAVE_OPENSSL
        {"OpenSSL", openssl_sha256, 0},
#endif
    };
#ifdef HAVE_OPENSSL
    context = EVP_MD_CTX_new();
    md256 = EVP_MD_fetch(NULL, "SHA256", NULL);
    md3 = EVP_MD_fetch(NULL, "SHA3-256", NULL);
    if (context == NULL || md256 == NULL || md3 == NULL)
        return 1;
#endif
    struct entry ways[] = {
        {"ours", dilpako_sha256, 0},
        {"in pieces", in_pieces, 0},
        {"as a pair", as_pair, 0},
        {"after a block", after_block, 0},
    };
    compare(ways, 4, bytes);
    table("SHA-256", two, (int)(sizeof two / sizeof *two), bytes);
#ifdef HAVE_SHA3
    struct entry three[] = {
        {"ours", dilpako_sha3_256, 0},
        {"plain C, gcc", plain_sha3_256_gcc, 0},
#ifdef HAVE_CLANG
        {"plain C, clang", plain_sha3_256_clang, 0},
#endif
#ifdef HAVE_OPENSSL
        {"OpenSSL", openssl_sha3_256, 0},
#endif
    };
    table("SHA3-256", three, (int)(sizeof three / sizeof *three), bytes);
#endif
    free(bytes);
    return 0;
}
