/* A tablet's first program: casts one ballot and prints its receipt.
 *
 *     tablet ID VOTE [ELECTION] < /dev/urandom
 *
 * ELECTION is the election's number; without it the ballot is for a record that has none. The numbers and keys that hide the vote come from
 * standard input. They must be random, and are used for one ballot only. */

#include <ctype.h>
#include <inttypes.h>
#include <paddockyear.h>
#include <stdio.h>
#include <stdlib.h>

enum { MODULUS = 1000 }; /* votes are numbers below it */

static void take(uint8_t *bytes, size_t length) {
    if (fread(bytes, 1, length, stdin) == length) return;
    fputs("tablet: standard input has too few random bytes\n", stderr);
    exit(2);
}

/* A number of 32 bits in decimal. */
static uint32_t read_number(const char *text) {
    char *end;
    unsigned long long number = strtoull(text, &end, 10);
    if (isdigit((unsigned char)*text) && *end == '\0' && number <= UINT32_MAX) return (uint32_t)number;
    fprintf(stderr, "tablet: no number: %s\n", text);
    exit(2);
}

/* A number below the modulus, each as likely as the others: what lies above the last whole multiple of it is thrown away. */
static uint32_t take_number(void) {
    uint8_t b[4];
    uint32_t number;
    do {
        take(b, sizeof b);
        number = (uint32_t)b[0] << 24 | (uint32_t)b[1] << 16 | (uint32_t)b[2] << 8 | b[3];
    } while (number >= UINT32_MAX - UINT32_MAX % MODULUS);
    return number % MODULUS;
}

int main(int argc, char **argv) {
    uint8_t keys[PADDOCKYEAR_BALLOT_KEYS_LENGTH];
    uint8_t command[PADDOCKYEAR_COMMAND_LENGTH], receipt[PADDOCKYEAR_RECEIPT_LENGTH];
    if (argc != 3 && argc != 4) {
        fputs("usage: tablet ID VOTE [ELECTION] < /dev/urandom\n", stderr);
        return 2;
    }
    uint32_t id = read_number(argv[1]), vote = read_number(argv[2]);
    uint32_t numbered = argc == 4, election = numbered ? read_number(argv[3]) : 0;
    uint32_t x = take_number(), y = take_number();                       /* two of the three shares of the vote */
    uint32_t u1 = take_number(), u2 = take_number(), u3 = take_number(); /* the first halves of all three */
    take(keys, sizeof keys);

    uint32_t answer = paddockyear_tablet(numbered, election, MODULUS, id, vote, x, y, u1, u2, u3, keys, sizeof keys, command,
                                         sizeof command, receipt, sizeof receipt);
    if (answer != PADDOCKYEAR_DONE) {
        printf("ballot %" PRIu32 " is not cast: rule %" PRIu32 ", %s\n", id, answer, paddockyear_rule(answer));
        return 1;
    }

    /* The command will stand on the board; id, vote, x, y, u1, u2, u3 and keys are what the servers' inputs have of this ballot. Sending
     * them in secret, and forgetting them, is left to the tablet. The voter takes the receipt home. */
    printf("ballot %" PRIu32 " is cast, its receipt is\n", id);
    for (size_t i = 0; i < sizeof receipt; i++) printf("%02x", receipt[i]);
    printf("\n");
    return 0;
}
