/* A judge of whole boards in plain C over OpenSSL's SHA-3: the baseline for the product's judge. */

#ifndef JUDGE_H
#define JUDGE_H

#include <stddef.h>
#include <stdint.h>

/* Readies OpenSSL; 0 if that fails. */
int judge_start(void);
void judge_stop(void);

/* 0 for an accepted record, else the number of the first rule broken. `place` gets the start of
 * the faulty command: for 17 the byte behind 0B, where no byte is left the record's length. Rules
 * 8 and 12 are met only if `drawn` is not 0. */
int judge(const uint8_t *record, size_t length, int drawn, size_t *place);

/* The calls of Keccak-f[1600] that the last judging took, counted at its digests. */
uint64_t judge_permutations(void);

#endif
