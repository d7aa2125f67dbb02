/* Gimli in C, for comparison: nothing of it is proved. Each function permutes in place. */
#ifndef BENCH_PERMUTATIONS_H
#define BENCH_PERMUTATIONS_H

/* A loop over the rounds and the columns. */
void c_loop(unsigned char state[48]);

/* Rows in SSE2 registers, four rounds to a turn. */
void c_sse2(unsigned char state[48]);

/* Three shares, one behind another, words in arrays. */
void c_three_shares(unsigned char shares[144]);

/* Three shares with rows in SSE2 registers. */
void c_three_shares_sse2(unsigned char shares[144]);

#endif
