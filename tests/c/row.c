/* A mix server's first program: one row of one column, three ballots, modulo 9. */

#include <inttypes.h>
#include <paddockyear.h>
#include <stdio.h>

enum { MODULUS = 9, BALLOTS = 3 };

int main(void) {
    const uint32_t row[BALLOTS] = {5, 6, 7};         /* as it comes in */
    const uint32_t offsets[BALLOTS] = {1, 2, 3};     /* by incoming places */
    const uint16_t permutation[BALLOTS] = {2, 0, 1}; /* place 0 is filled from place 2, place 1 from place 0, .. */
    uint32_t out[BALLOTS];

    uint32_t answer = paddockyear_row_server(MODULUS, BALLOTS, row, BALLOTS, offsets, BALLOTS, permutation, BALLOTS, out, BALLOTS);
    if (answer != PADDOCKYEAR_DONE) {
        printf("not mixed: rule %" PRIu32 ", %s\n", answer, paddockyear_rule(answer));
        return 1;
    }
    for (size_t i = 0; i < BALLOTS; i++) printf("place %zu has %" PRIu32 "\n", i, out[i]);
    return 0;
}
