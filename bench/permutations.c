/* No header is included, so that Rattle's clang, which comes without any, compiles this file. */
#include "permutations.h"

typedef __UINT32_TYPE__ u32;
typedef u32 row __attribute__((vector_size(16)));

#define CONSTANT 0x9e377900u

static inline u32 rotate(u32 x, int k)
{
    return x << k | x >> (32 - k);
}

static inline void swap(u32 *a, u32 *b)
{
    u32 t = *a;
    *a = *b;
    *b = t;
}

static inline void small_swap(u32 *top)
{
    swap(&top[0], &top[1]);
    swap(&top[2], &top[3]);
}

static inline void big_swap(u32 *top)
{
    swap(&top[0], &top[2]);
    swap(&top[1], &top[3]);
}

void c_loop(unsigned char state[48])
{
    u32 s[12];
    __builtin_memcpy(s, state, 48);
    for (u32 r = 24; r > 0; r--) {
        for (int j = 0; j < 4; j++) {
            u32 x = rotate(s[j], 24), y = rotate(s[4 + j], 9), z = s[8 + j];
            s[8 + j] = x ^ z << 1 ^ (y & z) << 2;
            s[4 + j] = y ^ x ^ (x | z) << 1;
            s[j] = z ^ y ^ (x & y) << 3;
        }
        if (r % 4 == 0) {
            small_swap(s);
            s[0] ^= CONSTANT ^ r;
        } else if (r % 4 == 2) {
            big_swap(s);
        }
    }
    __builtin_memcpy(state, s, 48);
}

/* The instructions of SSE2: pslld and psrld, por, pand, pxor, pshufd. */

static inline row rotate_row(row x, int k)
{
    return x << k | x >> (32 - k);
}

#define SMALL_SWAP(x) __builtin_shufflevector(x, x, 1, 0, 3, 2)
#define BIG_SWAP(x) __builtin_shufflevector(x, x, 2, 3, 0, 1)

static inline void sp_box(row *top, row *middle, row *bottom)
{
    row x = rotate_row(*top, 24), y = rotate_row(*middle, 9), z = *bottom;
    *bottom = x ^ z << 1 ^ (y & z) << 2;
    *middle = y ^ x ^ (x | z) << 1;
    *top = z ^ y ^ (x & y) << 3;
}

void c_sse2(unsigned char state[48])
{
    row x, y, z;
    __builtin_memcpy(&x, state, 16);
    __builtin_memcpy(&y, state + 16, 16);
    __builtin_memcpy(&z, state + 32, 16);
    for (u32 r = 24; r > 0; r -= 4) {
        sp_box(&x, &y, &z);
        x = SMALL_SWAP(x) ^ (row){CONSTANT ^ r, 0, 0, 0};
        sp_box(&x, &y, &z);
        sp_box(&x, &y, &z);
        x = BIG_SWAP(x);
        sp_box(&x, &y, &z);
    }
    __builtin_memcpy(state, &x, 16);
    __builtin_memcpy(state + 16, &y, 16);
    __builtin_memcpy(state + 32, &z, 16);
}

void c_three_shares(unsigned char shares[144])
{
    u32 s[3][12], t[3][12];
    __builtin_memcpy(s, shares, 144);
    for (u32 r = 24; r > 0; r--) {
        for (int h = 0; h < 3; h++) {
            const u32 *a = s[(h + 1) % 3], *b = s[(h + 2) % 3];
            for (int j = 0; j < 4; j++) {
                u32 xa = rotate(a[j], 24), ya = rotate(a[4 + j], 9), za = a[8 + j];
                u32 xb = rotate(b[j], 24), yb = rotate(b[4 + j], 9), zb = b[8 + j];
                t[h][8 + j] = xa ^ za << 1 ^ ((ya & za) ^ (ya & zb) ^ (yb & za)) << 2;
                t[h][4 + j] = ya ^ xa ^ (xa ^ za ^ (xa & za) ^ (xa & zb) ^ (xb & za)) << 1;
                t[h][j] = za ^ ya ^ ((xa & ya) ^ (xa & yb) ^ (xb & ya)) << 3;
            }
        }
        __builtin_memcpy(s, t, 144);
        if (r % 4 == 0) {
            for (int h = 0; h < 3; h++)
                small_swap(s[h]);
            s[0][0] ^= CONSTANT ^ r;
        } else if (r % 4 == 2) {
            for (int h = 0; h < 3; h++)
                big_swap(s[h]);
        }
    }
    __builtin_memcpy(shares, s, 144);
}

static inline void share_sp_box(row *o, const row *a, const row *b)
{
    row xa = rotate_row(a[0], 24), ya = rotate_row(a[1], 9), za = a[2];
    row xb = rotate_row(b[0], 24), yb = rotate_row(b[1], 9), zb = b[2];
    o[2] = xa ^ za << 1 ^ ((ya & za) ^ (ya & zb) ^ (yb & za)) << 2;
    o[1] = ya ^ xa ^ (xa ^ za ^ (xa & za) ^ (xa & zb) ^ (xb & za)) << 1;
    o[0] = za ^ ya ^ ((xa & ya) ^ (xa & yb) ^ (xb & ya)) << 3;
}

static inline void share_sp_boxes(row s[9])
{
    row t[9];
    share_sp_box(t, s + 3, s + 6);
    share_sp_box(t + 3, s + 6, s);
    share_sp_box(t + 6, s, s + 3);
    __builtin_memcpy(s, t, 144);
}

void c_three_shares_sse2(unsigned char shares[144])
{
    row s[9];
    __builtin_memcpy(s, shares, 144);
    for (u32 r = 24; r > 0; r -= 4) {
        share_sp_boxes(s);
        s[0] = SMALL_SWAP(s[0]) ^ (row){CONSTANT ^ r, 0, 0, 0};
        s[3] = SMALL_SWAP(s[3]);
        s[6] = SMALL_SWAP(s[6]);
        share_sp_boxes(s);
        share_sp_boxes(s);
        s[0] = BIG_SWAP(s[0]);
        s[3] = BIG_SWAP(s[3]);
        s[6] = BIG_SWAP(s[6]);
        share_sp_boxes(s);
    }
    __builtin_memcpy(shares, s, 144);
}
