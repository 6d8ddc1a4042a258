/* Times of the product's receipt lookup, for the first, the middle and the last id of a board of
 * either form, beside those of its receipt check, which reads all ballots: their ratios, all from
 * one run. Both hash the one ballot that has the id; the second ratio is of what they take beside
 * that hash. */

#include "paddockyear.h"
#include "support.h"

#include <math.h>
#include <stdio.h>
#include <string.h>

#define AIM 0.01

enum { REPETITIONS = 40, CALLS = 50, MOST = 4096, COMMAND = PADDOCKYEAR_COMMAND_LENGTH };

static uint8_t board[12 + MOST * COMMAND], receipt[PADDOCKYEAR_RECEIPT_LENGTH];
static size_t length, first; /* of the board and of its first command */

static void put4(uint8_t *at, uint32_t x) {
    for (int i = 0; i < 4; i++) at[i] = (uint8_t)(x >> (24 - 8 * i));
}

/* Ballot j, from 0. */
static uint8_t *command(uint32_t j) { return board + first + j * COMMAND; }

/* The parameters and all ballots; neither lookup nor check looks into the commitments. */
static void make_board(int numbered, uint32_t n) {
    const uint8_t parameters[] = {0, 0, 0, 100, (uint8_t)(n >> 8), (uint8_t)n, 12};
    first = numbered ? 12 : 8;
    length = first + n * COMMAND;
    for (size_t i = 0; i < length; i++) board[i] = (uint8_t)(i * 167 >> 3);
    board[0] = numbered ? 0x0C : 0x01;
    memcpy(board + first - sizeof parameters, parameters, sizeof parameters);
    for (uint32_t j = 0; j < n; j++) {
        *command(j) = 2;
        put4(command(j) + 1, 3 * j + 1);
    }
}

static void take_receipt(uint32_t j) {
    memcpy(receipt, command(j) + 1, 4);
    paddockyear_sha3_224(command(j), COMMAND, receipt + 4);
}

static void look_up(void) {
    for (int i = 0; i < CALLS; i++) {
        uint32_t answer = paddockyear_look_up(board, length, receipt, sizeof receipt);
        demand(answer == 0, "the lookup answers otherwise");
    }
}

static void check(void) {
    for (int i = 0; i < CALLS; i++) {
        uint32_t answer = paddockyear_check_receipt(board, length, receipt, sizeof receipt);
        demand(answer == 0, "the check answers otherwise");
    }
}

static void hash(void) {
    uint8_t digest[28];
    for (int i = 0; i < CALLS; i++) paddockyear_sha3_224(command(0), COMMAND, digest);
}

/* The best of each, taken in turn. */
static void compare(uint32_t n, const char *which, uint32_t j, const char *aim) {
    double looking = INFINITY, checking = INFINITY, hashing = INFINITY;
    take_receipt(j);
    for (int i = 0; i < REPETITIONS; i++) {
        looking = smaller(looking, time_once(look_up) / CALLS);
        checking = smaller(checking, time_once(check) / CALLS);
        hashing = smaller(hashing, time_once(hash) / CALLS);
    }
    printf("Lookup %02X, n = %4u, %-9s   ours %9.3f us   check   %9.3f us   ratio %.3f", board[0],
           n, which, 1e6 * looking, 1e6 * checking, looking / checking);
    printf(", beside the hash (%.3f us) %.3f%s\n", 1e6 * hashing,
           (looking - hashing) / (checking - hashing), aim);
}

static void compare_ids(int numbered, uint32_t n) {
    char aim[40];
    snprintf(aim, sizeof aim, " (aim: at most %.2f)", AIM);
    make_board(numbered, n);
    compare(n, "first id", 0, aim);
    compare(n, "middle id", n / 2, "");
    compare(n, "last id", n - 1, "");
}

int main(void) {
    for (int numbered = 0; numbered < 2; numbered++) {
        compare_ids(numbered, MOST / 4);
        compare_ids(numbered, MOST);
    }
    return 0;
}
