/* Honest elections of a fixed generator, of 1,024, 2,048 and 4,096 ballots with m = 12, in both
 * forms. Those of one size have the same inputs and dice. */

#ifndef INPUTS_H
#define INPUTS_H

#include "paddockyear.h"

enum { SIZES = 3, LEAST = 1024, MOST = LEAST << (SIZES - 1) };
enum { COMPARED = 12, LISTS = 2 * COMPARED, DICE = PADDOCKYEAR_DICE_LENGTH };

/* The first command's form: a record without and one with an election's number. */
enum { PLAIN, NUMBERED, FORMS };

/* Mask and sides are drawn. */
struct election {
    struct paddockyear_inputs in;
    struct paddockyear_throws throws;
    struct paddockyear_parts parts;
};

void make_elections(void);

/* The one of LEAST << size ballots in a form. All of them share the buffers of their parts. */
struct election lent_election(int size, int form);

/* The command that stands first, in hexadecimal. */
const char *first_command(int form);

/* The generator: SplitMix64. */
uint64_t below(uint64_t bound);
void fill(uint8_t *bytes, size_t length, uint8_t least, uint32_t choices);

#endif
