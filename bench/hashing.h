/* SHA3-256 by OpenSSL, and the times of one permutation, the product's and OpenSSL's. */

#ifndef HASHING_H
#define HASHING_H

#include <stddef.h>
#include <stdint.h>

/* Permutations in a row. */
enum { ROW = 2000 };

/* Readies OpenSSL, or ends the program. */
void hashing_start(void);
void hashing_stop(void);

/* The context is reused, and the algorithm was fetched once. */
void openssl_sha3_256(const uint8_t *m, size_t m_len, uint8_t out[32]);

typedef void hash(const uint8_t *, size_t, uint8_t[32]);

/* The time of one call out of so many; each digest goes into the next message. */
double time_hash(hash *of, uint8_t *message, size_t length, unsigned calls);

/* The time of one permutation out of so many rows. OpenSSL has no public face of it: its time has
 * the absorbing of a block in it, which is small beside the permutation. */
double ours_permutation(unsigned rows);
double openssl_permutation(unsigned rows);

#endif
