/* The proved digests, for C. Link target/staticlib/libcapi.a, which tools/staticlib makes. */
#ifndef DILPAKO_H
#define DILPAKO_H

#include <stddef.h>
#include <stdint.h>

#ifdef __cplusplus
extern "C" {
#endif

/* A message that comes in pieces. The members are the library's own. */
typedef struct {
    uint32_t state[8];
    uint8_t block[64];
    uint64_t len;
} dilpako_sha256_hasher;

/* The state after a first block. The member is the library's own. */
typedef struct {
    uint32_t state[8];
} dilpako_sha256_midstate_t;

/* The SHA-256 of len bytes. */
void dilpako_sha256(const uint8_t *bytes, size_t len, uint8_t out[32]);

/* The SHA-256 of one string and then another. */
void dilpako_sha256_pair(const uint8_t *front, size_t front_len, const uint8_t *back, size_t back_len, uint8_t out[32]);

/* A hasher: start it, give it pieces, and read the digest of all of them. */
void dilpako_sha256_start(dilpako_sha256_hasher *hasher);
void dilpako_sha256_update(dilpako_sha256_hasher *hasher, const uint8_t *piece, size_t len);
void dilpako_sha256_finalize(const dilpako_sha256_hasher *hasher, uint8_t out[32]);

/* The state after a block of 64 bytes, and the SHA-256 of that block and then len bytes. */
void dilpako_sha256_midstate(dilpako_sha256_midstate_t *midstate, const uint8_t block[64]);
void dilpako_sha256_after(const dilpako_sha256_midstate_t *midstate, const uint8_t *rest, size_t len, uint8_t out[32]);

/* The SHA3-256 of len bytes, where the library has it. */
void dilpako_sha3_256(const uint8_t *bytes, size_t len, uint8_t out[32]);

#ifdef __cplusplus
}
#endif

#endif
