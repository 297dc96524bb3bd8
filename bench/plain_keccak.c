// SHA3-256 in plain C (FIPS 202): the 25 lanes in variables, one round in the loop, no vectors.
// SUFFIX tells the same file apart under several compilers.
#include <stddef.h>
#include <stdint.h>
#include <string.h>

#define JOIN2(a, b) a##b
#define JOIN(a, b) JOIN2(a, b)

static const uint64_t RC[24] = {
    0x0000000000000001, 0x0000000000008082, 0x800000000000808a, 0x8000000080008000,
    0x000000000000808b, 0x0000000080000001, 0x8000000080008081, 0x8000000000008009,
    0x000000000000008a, 0x0000000000000088, 0x0000000080008009, 0x000000008000000a,
    0x000000008000808b, 0x800000000000008b, 0x8000000000008089, 0x8000000000008003,
    0x8000000000008002, 0x8000000000000080, 0x000000000000800a, 0x800000008000000a,
    0x8000000080008081, 0x8000000000008080, 0x0000000080000001, 0x8000000080008008,
};

static inline uint64_t rotl(uint64_t x, int k)
{
    return k == 0 ? x : x << k | x >> (64 - k);
}

#define ROW(y, p, q, r, s, t) \
    a[y] = p ^ (~q & r); \
    a[y + 1] = q ^ (~r & s); \
    a[y + 2] = r ^ (~s & t); \
    a[y + 3] = s ^ (~t & p); \
    a[y + 4] = t ^ (~p & q)

static void permute(uint64_t a[25])
{
    for (int t = 0; t < 24; t++) {
        uint64_t c0 = a[0] ^ a[5] ^ a[10] ^ a[15] ^ a[20];
        uint64_t c1 = a[1] ^ a[6] ^ a[11] ^ a[16] ^ a[21];
        uint64_t c2 = a[2] ^ a[7] ^ a[12] ^ a[17] ^ a[22];
        uint64_t c3 = a[3] ^ a[8] ^ a[13] ^ a[18] ^ a[23];
        uint64_t c4 = a[4] ^ a[9] ^ a[14] ^ a[19] ^ a[24];
        uint64_t d0 = c4 ^ rotl(c1, 1), d1 = c0 ^ rotl(c2, 1), d2 = c1 ^ rotl(c3, 1), d3 = c2 ^ rotl(c4, 1), d4 = c3 ^ rotl(c0, 1);
        uint64_t b0 = a[0] ^ d0, b1 = rotl(a[6] ^ d1, 44), b2 = rotl(a[12] ^ d2, 43), b3 = rotl(a[18] ^ d3, 21), b4 = rotl(a[24] ^ d4, 14);
        uint64_t b5 = rotl(a[3] ^ d3, 28), b6 = rotl(a[9] ^ d4, 20), b7 = rotl(a[10] ^ d0, 3), b8 = rotl(a[16] ^ d1, 45), b9 = rotl(a[22] ^ d2, 61);
        uint64_t b10 = rotl(a[1] ^ d1, 1), b11 = rotl(a[7] ^ d2, 6), b12 = rotl(a[13] ^ d3, 25), b13 = rotl(a[19] ^ d4, 8), b14 = rotl(a[20] ^ d0, 18);
        uint64_t b15 = rotl(a[4] ^ d4, 27), b16 = rotl(a[5] ^ d0, 36), b17 = rotl(a[11] ^ d1, 10), b18 = rotl(a[17] ^ d2, 15), b19 = rotl(a[23] ^ d3, 56);
        uint64_t b20 = rotl(a[2] ^ d2, 62), b21 = rotl(a[8] ^ d3, 55), b22 = rotl(a[14] ^ d4, 39), b23 = rotl(a[15] ^ d0, 41), b24 = rotl(a[21] ^ d1, 2);
        ROW(0, b0, b1, b2, b3, b4);
        ROW(5, b5, b6, b7, b8, b9);
        ROW(10, b10, b11, b12, b13, b14);
        ROW(15, b15, b16, b17, b18, b19);
        ROW(20, b20, b21, b22, b23, b24);
        a[0] ^= RC[t];
    }
}

static uint64_t load(const uint8_t *p)
{
    uint64_t x = 0;
    for (int i = 0; i < 8; i++)
        x |= (uint64_t)p[i] << 8 * i;
    return x;
}

static void blocks(uint64_t s[25], const uint8_t *p, size_t n)
{
    for (; n > 0; n--, p += 136) {
        for (int i = 0; i < 17; i++)
            s[i] ^= load(p + 8 * i);
        permute(s);
    }
}

void JOIN(plain_sha3_256_, SUFFIX)(const uint8_t *p, size_t n, uint8_t out[32])
{
    uint64_t s[25] = {0};
    uint8_t last[136] = {0};
    size_t k = n % 136;
    blocks(s, p, n / 136);
    memcpy(last, p + (n - k), k);
    last[k] = 0x06;
    last[135] ^= 0x80;
    blocks(s, last, 1);
    for (int i = 0; i < 32; i++)
        out[i] = (uint8_t)(s[i / 8] >> 8 * (i % 8));
}
