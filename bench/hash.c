/* Times of the product's SHA-3 and of OpenSSL's, taken in turn in one run, and their ratios. */

#include "hashing.h"
#include "paddockyear.h"
#include "support.h"

#include <math.h>
#include <stdio.h>
#include <stdlib.h>
#include <string.h>

#define LONG_AIM 1.05
#define PERMUTATION_AIM 1.03

/* Readings this close to the best bear it out. Both sides need enough of them. */
#define CLOSE 1.01

enum { REPETITIONS = 60, ENOUGH = 20, MOST_REPETITIONS = 600 };
enum { SHORT = 36, LONG = 5000000, SHORT_CALLS = 2000 };

static uint8_t *message;

static double ours_short(void) {
    return time_hash(paddockyear_sha3_256, message, SHORT, SHORT_CALLS);
}

static double openssl_short(void) {
    return time_hash(openssl_sha3_256, message, SHORT, SHORT_CALLS);
}

static double ours_long(void) { return time_hash(paddockyear_sha3_256, message, LONG, 1); }
static double openssl_long(void) { return time_hash(openssl_sha3_256, message, LONG, 1); }
static double ours_row(void) { return ours_permutation(1); }
static double openssl_row(void) { return openssl_permutation(1); }

/* The best reading, and how many are close to it. */
struct readings {
    double best;
    int close;
};

/* One far better shows that all before it were disturbed. */
static void take(struct readings *of, double reading) {
    if (CLOSE * reading < of->best) of->close = 0;
    of->best = smaller(reading, of->best);
    if (reading <= CLOSE * of->best) of->close++;
}

/* The best of each side, taken in turn, longer where the readings spread. */
static void compare(const char *name, double (*ours)(void), double (*openssl)(void)) {
    struct readings us = {INFINITY, 0}, them = {INFINITY, 0};
    for (int i = 0; i < MOST_REPETITIONS; i++) {
        if (i >= REPETITIONS && us.close >= ENOUGH && them.close >= ENOUGH) break;
        take(&us, ours());
        take(&them, openssl());
    }
    printf("%-26s ours %10.3f us   OpenSSL %10.3f us   ratio %.3f", name, 1e6 * us.best,
           1e6 * them.best, us.best / them.best);
}

static void print_aim(double aim) { printf(" (aim: at most %.2f)\n", aim); }

/* Both sides hash alike, or their times mean nothing. */
static void check_digests(size_t length) {
    uint8_t ours[32], openssl[32];
    paddockyear_sha3_256(message, length, ours);
    openssl_sha3_256(message, length, openssl);
    demand(memcmp(ours, openssl, 32) == 0, "the digests differ");
}

int main(void) {
    hashing_start();
    message = malloc(LONG);
    demand(message != NULL, "no memory");
    for (size_t i = 0; i < LONG; i++) {
        message[i] = (uint8_t)(i * 167 >> 3);
    }
    check_digests(SHORT);
    check_digests(LONG);
    compare("SHA3-256 of 36 bytes", ours_short, openssl_short);
    printf("\n");
    compare("SHA3-256 of 5 MB", ours_long, openssl_long);
    print_aim(LONG_AIM);
    compare("Keccak-f[1600]", ours_row, openssl_row);
    print_aim(PERMUTATION_AIM);
    free(message);
    hashing_stop();
    return 0;
}
