/* Sealed brake records over the Gimli permutation, for C.
 *
 * Every function is proved to do what its comment says, for all arguments that C can pass rightly:
 * a pointer is not null, not even beside a length of 0, and has as many bytes behind it as the length
 * after it says; what a function writes (the pointers without const) overlaps no other argument.
 * Nothing is allocated, and nothing is kept between calls: two threads may call at once.
 *
 * A call that refuses names the first fault, in the order given at the function, and changes nothing;
 * the one exception is GIMLI_TAG_DIFFERS, at gimli_open.
 */
#ifndef GIMLI_RECORDS_H
#define GIMLI_RECORDS_H

#include <stdbool.h>
#include <stddef.h>
#include <stdint.h>

#ifdef __cplusplus
extern "C" {
#endif

enum {
    GIMLI_HASH_LEN = 32,
    GIMLI_KEY_LEN = 32,
    GIMLI_NAME_LEN = 12,
    GIMLI_NONCE_LEN = 16,
    GIMLI_TAG_LEN = 16,
    GIMLI_STATE_LEN = 48,
    GIMLI_SHARES_LEN = 3 * 48
};

/* The answers of gimli_hash, gimli_seal and gimli_open. */
enum {
    GIMLI_DONE = 0,
    GIMLI_KEY_LENGTH = 3,       /* the key is not 32 bytes */
    GIMLI_NAME_LENGTH = 4,      /* the bench's name is not 12 bytes */
    GIMLI_BOOK_USED_UP = 5,     /* the count is 4294967295: no nonce is left under this name */
    GIMLI_NONCE_LENGTH = 6,     /* the nonce, or the place for it, is not 16 bytes */
    GIMLI_BUFFER_TOO_SHORT = 7, /* a buffer has no room for what is to be written */
    GIMLI_BOX_TOO_SHORT = 8,    /* the box is shorter than its tag */
    GIMLI_TAG_DIFFERS = 9       /* the box is no message's under this key, nonce and associated data */
};

/* Gimli-24-Hash. The first 32 bytes of digest become the hash of the message; the rest stays.
 * Refuses: GIMLI_BUFFER_TOO_SHORT, if digest has less than 32 bytes. */
uint8_t gimli_hash(const uint8_t *message, size_t message_len, uint8_t *digest, size_t digest_len);

/* Gimli-24-Cipher. Seals a message under a key and the next nonce of the bench's book.
 *
 * name and *count are the book: the nonce is the name, then *count as four bytes, lowest first. It is written
 * to nonce, and *count goes up by one, so that the next call has another nonce. A bench that keeps the count
 * over its restarts never uses a nonce twice.
 * The first message_len + 16 bytes of sealed become the box (ciphertext, then tag); the rest stays.
 *
 * Refuses, in this order: GIMLI_KEY_LENGTH, GIMLI_NAME_LENGTH, GIMLI_BOOK_USED_UP, GIMLI_NONCE_LENGTH
 * (nonce_len is not 16), GIMLI_BUFFER_TOO_SHORT (sealed_len is less than message_len + 16). */
uint8_t gimli_seal(const uint8_t *key, size_t key_len,
                   const uint8_t *name, size_t name_len,
                   uint32_t *count,
                   const uint8_t *ad, size_t ad_len,
                   const uint8_t *message, size_t message_len,
                   uint8_t *sealed, size_t sealed_len,
                   uint8_t *nonce, size_t nonce_len);

/* Gimli-24-Cipher. Opens a box.
 *
 * If the box is that of a message under the key, the nonce and the associated data, the first sealed_len - 16
 * bytes of message become that message; the rest stays. Otherwise the answer is GIMLI_TAG_DIFFERS, and zeros
 * stand in those bytes.
 *
 * Refuses, in this order: GIMLI_KEY_LENGTH, GIMLI_NONCE_LENGTH, GIMLI_BOX_TOO_SHORT (sealed_len is less than 16),
 * GIMLI_BUFFER_TOO_SHORT (message_len is less than sealed_len - 16), GIMLI_TAG_DIFFERS. */
uint8_t gimli_open(const uint8_t *key, size_t key_len,
                   const uint8_t *nonce, size_t nonce_len,
                   const uint8_t *ad, size_t ad_len,
                   const uint8_t *sealed, size_t sealed_len,
                   uint8_t *message, size_t message_len);

/* One Gimli permutation of a state's string, as the plain and as the standing engine compute it.
 * false: state_len is not 48, and the string is as it was. */
bool gimli_permute_plain(uint8_t *state, size_t state_len);
bool gimli_permute_standing(uint8_t *state, size_t state_len);

/* One Gimli permutation of three shares, one behind another, as the three-share engine computes it: each share
 * by its own rules. The xor of the three strings is permuted by that.
 * false: shares_len is not 144, and the shares are as they were. */
bool gimli_permute_three_share(uint8_t *shares, size_t shares_len);

#ifdef __cplusplus
}
#endif

#endif
