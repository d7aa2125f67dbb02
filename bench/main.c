/* Checks that the library and the permutations in C agree, and prints what each takes, from this one run.
 * Every time is the least of many short repetitions: other work on the machine only ever adds time. The
 * subjects take turns, so that none of them has a quieter machine than another. */
#define _POSIX_C_SOURCE 199309L
#include "gimli_records.h"
#include "permutations.h"

#include <stdio.h>
#include <stdlib.h>
#include <string.h>
#include <time.h>

enum { LONG = 1 << 20, SHORT = 64 };

static uint8_t state[GIMLI_STATE_LEN], shares[GIMLI_SHARES_LEN];
static uint8_t key[GIMLI_KEY_LEN], nonce[GIMLI_NONCE_LEN], digest[GIMLI_HASH_LEN];
static const uint8_t name[GIMLI_NAME_LEN] = "bench 07/ABC", ad[1];
static uint8_t message[LONG], sealed[LONG + GIMLI_TAG_LEN], opened[LONG];
static uint8_t short_sealed[SHORT + GIMLI_TAG_LEN];
static uint32_t count;

static void run_c_loop(void) { c_loop(state); }
static void run_c_sse2(void) { c_sse2(state); }
static void run_plain(void) { gimli_permute_plain(state, sizeof state); }
static void run_standing(void) { gimli_permute_standing(state, sizeof state); }
static void run_c_shares(void) { c_three_shares(shares); }
static void run_c_shares_sse2(void) { c_three_shares_sse2(shares); }
static void run_shares(void) { gimli_permute_three_share(shares, sizeof shares); }
static void run_digest(void) { gimli_hash(message, sizeof message, digest, sizeof digest); }

static uint8_t seal(size_t len, uint8_t *box)
{
    return gimli_seal(key, sizeof key, name, sizeof name, &count, ad, 0, message, len,
                      box, len + GIMLI_TAG_LEN, nonce, sizeof nonce);
}

static uint8_t open(void)
{
    return gimli_open(key, sizeof key, nonce, sizeof nonce, ad, 0, sealed, sizeof sealed, opened, sizeof opened);
}

static void run_seal(void) { seal(LONG, sealed); }
static void run_open(void) { open(); }
static void run_short_seal(void) { seal(SHORT, short_sealed); }

/* The subjects, with how many calls make one repetition. */
enum { C_LOOP, C_SSE2, PLAIN, STANDING, C_SHARES, C_SHARES_SSE2, SHARES, SHORT_SEAL, DIGEST, SEAL, OPEN, SUBJECTS };

static const struct subject {
    void (*run)(void);
    int calls;
    const char *name;
} subjects[SUBJECTS] = {
    [C_LOOP] = {run_c_loop, 200, "one permutation, loop in C"},
    [C_SSE2] = {run_c_sse2, 200, "one permutation, SSE2 rows in C"},
    [PLAIN] = {run_plain, 200, "one permutation, plain engine"},
    [STANDING] = {run_standing, 200, "one permutation, standing engine"},
    [C_SHARES] = {run_c_shares, 100, "three shares, loop in C"},
    [C_SHARES_SSE2] = {run_c_shares_sse2, 100, "three shares, SSE2 rows in C"},
    [SHARES] = {run_shares, 100, "three shares, three-share engine"},
    [SHORT_SEAL] = {run_short_seal, 50, "seal of 64 bytes"},
    [DIGEST] = {run_digest, 1, "digest of 1 MiB"},
    [SEAL] = {run_seal, 1, "seal of 1 MiB"},
    [OPEN] = {run_open, 1, "open of 1 MiB"},
};

static double best[SUBJECTS]; /* nanoseconds for one call */

static double now(void)
{
    struct timespec t;
    clock_gettime(CLOCK_MONOTONIC, &t);
    return t.tv_sec * 1e9 + t.tv_nsec;
}

static void measure(const struct subject *s, double *least)
{
    double start = now();
    for (int i = 0; i < s->calls; i++)
        s->run();
    double one = (now() - start) / s->calls;
    if (*least == 0 || one < *least)
        *least = one;
}

static void measure_all(int turns, int first, int last)
{
    for (int turn = 0; turn < turns; turn++)
        for (int i = first; i <= last; i++)
            measure(&subjects[i], &best[i]);
}

static void must(int holds, const char *what)
{
    if (holds)
        return;
    fprintf(stderr, "bench: %s\n", what);
    exit(1);
}

static void fill(uint8_t *bytes, size_t len)
{
    static uint32_t x = 1;
    for (size_t i = 0; i < len; i++) {
        x = x * 1664525u + 1013904223u;
        bytes[i] = (uint8_t)(x >> 24);
    }
}

/* All permutations of one state and of one sharing are the same, again and again. */
static void check_permutations(void)
{
    uint8_t a[GIMLI_STATE_LEN], b[GIMLI_STATE_LEN], c[GIMLI_STATE_LEN], d[GIMLI_STATE_LEN];
    uint8_t p[GIMLI_SHARES_LEN], q[GIMLI_SHARES_LEN], r[GIMLI_SHARES_LEN];
    for (int turn = 0; turn < 1000; turn++) {
        fill(p, sizeof p);
        memcpy(q, p, sizeof p);
        memcpy(r, p, sizeof p);
        for (int i = 0; i < GIMLI_STATE_LEN; i++)
            a[i] = p[i] ^ p[48 + i] ^ p[96 + i];
        memcpy(b, a, sizeof a);
        memcpy(c, a, sizeof a);
        memcpy(d, a, sizeof a);
        c_loop(a);
        c_sse2(b);
        must(gimli_permute_plain(c, sizeof c) && gimli_permute_standing(d, sizeof d), "a state was refused");
        must(!memcmp(a, b, sizeof a) && !memcmp(a, c, sizeof a) && !memcmp(a, d, sizeof a), "the permutations differ");
        c_three_shares(p);
        c_three_shares_sse2(q);
        must(gimli_permute_three_share(r, sizeof r), "the shares were refused");
        must(!memcmp(p, q, sizeof p) && !memcmp(p, r, sizeof p), "the shares differ");
        for (int i = 0; i < GIMLI_STATE_LEN; i++)
            must((p[i] ^ p[48 + i] ^ p[96 + i]) == a[i], "the shares are not those of the permuted state");
    }
}

/* The hash and the box of a message, by the permutation in C. */

static void absorb(uint8_t s[48], const uint8_t *in, size_t len, uint8_t *ciphertext)
{
    for (size_t i = 0; i < len; i++) {
        s[i % 16] ^= in[i];
        if (ciphertext)
            ciphertext[i] = s[i % 16];
        if (i % 16 == 15)
            c_loop(s);
    }
    s[len % 16] ^= 1;
    s[47] ^= 1;
    c_loop(s);
}

static void check_modes(size_t len)
{
    static uint8_t box[LONG + GIMLI_TAG_LEN];
    uint8_t s[48] = {0}, hash[GIMLI_HASH_LEN];
    absorb(s, message, len, NULL);
    memcpy(hash, s, 16);
    c_loop(s);
    memcpy(hash + 16, s, 16);
    must(gimli_hash(message, len, digest, sizeof digest) == GIMLI_DONE, "a hash was refused");
    must(!memcmp(digest, hash, sizeof hash), "the hashes differ");

    must(seal(len, sealed) == GIMLI_DONE, "a seal was refused");
    memcpy(s, nonce, 16);
    memcpy(s + 16, key, 32);
    c_loop(s);
    absorb(s, ad, 0, NULL);
    absorb(s, message, len, box);
    memcpy(box + len, s, 16);
    must(!memcmp(sealed, box, len + GIMLI_TAG_LEN), "the boxes differ");

    must(gimli_open(key, sizeof key, nonce, sizeof nonce, ad, 0, sealed, len + GIMLI_TAG_LEN, opened, len) == GIMLI_DONE, "a box was refused");
    must(!memcmp(opened, message, len), "the messages differ");
}

static void show(int i)
{
    if (best[i] < 1e5)
        printf("%-36s %10.1f ns\n", subjects[i].name, best[i]);
    else
        printf("%-36s %10.3f ms\n", subjects[i].name, best[i] / 1e6);
}

static void ratio(const char *what, double a, double b, double aim)
{
    printf("%-56s %6.2f", what, a / b);
    if (aim > 0)
        printf("   aim %.1f: %s", aim, a / b <= aim ? "met" : "MISSED");
    putchar('\n');
}

int main(void)
{
    fill(key, sizeof key);
    fill(message, sizeof message);
    check_permutations();
    for (size_t len = 0; len < 100; len++)
        check_modes(len);
    check_modes(LONG);
    printf("The library and C agree.\n\n");

    measure_all(3000, C_LOOP, SHORT_SEAL);
    must(seal(LONG, sealed) == GIMLI_DONE, "a seal was refused");
    measure_all(100, C_LOOP, OPEN);
    must(open() == GIMLI_DONE && !memcmp(opened, message, LONG), "the messages differ");
    measure_all(3000, C_LOOP, SHORT_SEAL);

    for (int i = 0; i < SUBJECTS; i++)
        show(i);

    /* 65536 full blocks and a last one; a digest squeezes two blocks, and permutes behind each of them */
    double block = best[PLAIN];
    double in_digest = (65536 + 1 + 2) * block;
    /* the start, the end of the associated data, 65536 full blocks and a last one; and one behind the tag */
    double in_box = (1 + 1 + 65536 + 1 + 1) * block;
    double in_short = (1 + 1 + 4 + 1 + 1) * block;
    printf("\n");
    ratio("plain engine / loop in C", best[PLAIN], best[C_LOOP], 0);
    ratio("plain engine / SSE2 rows in C", best[PLAIN], best[C_SSE2], 1.2);
    ratio("standing engine / loop in C", best[STANDING], best[C_LOOP], 0);
    ratio("standing engine / SSE2 rows in C", best[STANDING], best[C_SSE2], 0);
    ratio("three-share engine / three shares, loop in C", best[SHARES], best[C_SHARES], 1.3);
    ratio("three-share engine / three shares, SSE2 rows in C", best[SHARES], best[C_SHARES_SSE2], 0);
    ratio("digest of 1 MiB / its 65539 permutations", best[DIGEST], in_digest, 1.5);
    ratio("seal of 1 MiB / its 65540 permutations", best[SEAL], in_box, 1.5);
    ratio("open of 1 MiB / its 65540 permutations", best[OPEN], in_box, 1.5);
    ratio("seal of 64 bytes / its 8 permutations", best[SHORT_SEAL], in_short, 0);
    return 0;
}
