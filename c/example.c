/* A record sealed, printed with its slip, opened, and refused after one bit was changed. */
#include "gimli_records.h"

#include <stdio.h>
#include <string.h>

static void show(const char *what, const uint8_t *bytes, size_t len)
{
    printf("%s ", what);
    for (size_t i = 0; i < len; i++)
        printf("%02x", bytes[i]);
    putchar('\n');
}

int main(void)
{
    static const char name[] = "bench 07/ABC";
    static const char ad[] = "truck 4711";
    static const char record[] = "axle 1: left 4123 N, right 3987 N";
    uint8_t key[GIMLI_KEY_LEN], nonce[GIMLI_NONCE_LEN], digest[GIMLI_HASH_LEN];
    uint8_t sealed[sizeof record + GIMLI_TAG_LEN], opened[sizeof record];
    uint32_t count = 258;

    for (size_t i = 0; i < sizeof key; i++)
        key[i] = (uint8_t)i;

    uint8_t answer = gimli_seal(key, sizeof key, (const uint8_t *)name, strlen(name), &count,
                                (const uint8_t *)ad, strlen(ad), (const uint8_t *)record, sizeof record,
                                sealed, sizeof sealed, nonce, sizeof nonce);
    printf("seal: %d, the next count is %u\n", answer, (unsigned)count);
    show("nonce", nonce, sizeof nonce);
    show("box", sealed, sizeof sealed);

    answer = gimli_hash((const uint8_t *)record, sizeof record, digest, sizeof digest);
    printf("hash: %d\n", answer);
    show("slip", digest, sizeof digest);

    answer = gimli_open(key, sizeof key, nonce, sizeof nonce, (const uint8_t *)ad, strlen(ad),
                        sealed, sizeof sealed, opened, sizeof opened);
    printf("open: %d, %s\n", answer, (const char *)opened);

    sealed[0] ^= 1;
    answer = gimli_open(key, sizeof key, nonce, sizeof nonce, (const uint8_t *)ad, strlen(ad),
                        sealed, sizeof sealed, opened, sizeof opened);
    printf("one bit changed: %d\n", answer);
    show("opened", opened, sizeof opened);
    return 0;
}
