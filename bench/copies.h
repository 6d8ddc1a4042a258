/* Boards of 4,096 ballots made to be bad for rule 21: what their ballots commit to is hard to sort
 * or to tell apart, and cannot be opened. */

#ifndef COPIES_H
#define COPIES_H

#include "inputs.h"

enum { BAD_BOARDS = 7 };

/* What the commitments are like, and the number of a board with them in plain judging: 13, at the
 * first command 07, or 21. */
extern const struct bad_board {
    const char *name;
    uint32_t due;
    void (*make)(uint8_t (*all)[32]);
} bad_boards[BAD_BOARDS];

void make_bad_boards(void);

/* Puts them into the ballots of a record of MOST ballots with command 01, or of its first bytes. */
void put_commitments(int which, uint8_t *record);

#endif
