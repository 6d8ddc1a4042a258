/* A lobby screen's first program: looks receipts up on a board.
 *
 *     lobby BOARD
 *
 * Each line of standard input is a receipt, 64 hexadecimal digits, and is answered by a line. */

#include <inttypes.h>
#include <paddockyear.h>
#include <stdio.h>
#include <stdlib.h>
#include <string.h>

enum { DIGITS = 2 * PADDOCKYEAR_RECEIPT_LENGTH };

/* The first command, of 12 bytes at most, and as many ballots as there may be: no lookup reads what stands behind them. */
static uint8_t record[12 + PADDOCKYEAR_MOST_BALLOTS * PADDOCKYEAR_COMMAND_LENGTH];

/* Takes a line, of which it keeps what there is room for; answers whether there was one. */
static int take_line(char *line, size_t room) {
    size_t length = 0;
    int c = getchar();
    if (c == EOF) return 0;
    for (; c != '\n' && c != EOF; c = getchar())
        if (length + 1 < room) line[length++] = (char)c;
    line[length] = '\0';
    return 1;
}

/* Writes the receipt that a line has; answers whether it has one. */
static int read_receipt(const char *line, uint8_t receipt[PADDOCKYEAR_RECEIPT_LENGTH]) {
    if (strlen(line) != DIGITS || strspn(line, "0123456789ABCDEFabcdef") != DIGITS) return 0;
    for (size_t i = 0; i < PADDOCKYEAR_RECEIPT_LENGTH; i++) {
        const char pair[3] = {line[2 * i], line[2 * i + 1], '\0'};
        receipt[i] = (uint8_t)strtoul(pair, NULL, 16);
    }
    return 1;
}

static void say(const uint8_t *receipt, uint32_t answer) {
    uint32_t id = (uint32_t)receipt[0] << 24 | (uint32_t)receipt[1] << 16 | (uint32_t)receipt[2] << 8 | receipt[3];
    switch (answer) {
    case PADDOCKYEAR_DONE: printf("ballot %" PRIu32 " is posted as printed\n", id); break;
    case PADDOCKYEAR_POSTED_OTHERWISE: printf("ballot %" PRIu32 " is posted otherwise\n", id); break;
    case PADDOCKYEAR_NOT_POSTED: printf("ballot %" PRIu32 " is not posted\n", id); break;
    default: printf("the board is refused by rule %" PRIu32 ": %s\n", answer, paddockyear_rule(answer));
    }
}

int main(int argc, char **argv) {
    uint8_t receipt[PADDOCKYEAR_RECEIPT_LENGTH];
    char line[DIGITS + 2]; /* with room for one digit too many */
    FILE *board = argc == 2 ? fopen(argv[1], "rb") : NULL;
    if (board == NULL) {
        fputs("usage: lobby BOARD, a file that can be read\n", stderr);
        return 2;
    }
    size_t length = fread(record, 1, sizeof record, board);
    if (ferror(board)) {
        fputs("lobby: the board can't be read\n", stderr);
        return 2;
    }

    while (take_line(line, sizeof line)) {
        if (read_receipt(line, receipt))
            say(receipt, paddockyear_look_up(record, length, receipt, sizeof receipt));
        else
            printf("not a receipt\n");
    }
    return 0;
}
