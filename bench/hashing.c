#include "hashing.h"
#include "paddockyear.h"
#include "support.h"

#include <math.h>
#include <openssl/evp.h>

enum { RATE = 136, SINGLES = 10 };

static EVP_MD *sha3_256;
static EVP_MD_CTX *context;

void hashing_start(void) {
    sha3_256 = EVP_MD_fetch(NULL, "SHA3-256", NULL);
    context = EVP_MD_CTX_new();
    demand(sha3_256 && context, "no memory, or no SHA3-256 in OpenSSL");
}

void hashing_stop(void) {
    EVP_MD_CTX_free(context);
    EVP_MD_free(sha3_256);
}

void openssl_sha3_256(const uint8_t *m, size_t m_len, uint8_t out[32]) {
    int done = EVP_DigestInit_ex(context, sha3_256, NULL) && EVP_DigestUpdate(context, m, m_len) &&
               EVP_DigestFinal_ex(context, out, NULL);
    demand(done, "OpenSSL refuses");
}

double time_hash(hash *of, uint8_t *message, size_t length, unsigned calls) {
    MOVE_STACK();
    double start = seconds();
    for (unsigned i = 0; i < calls; i++) {
        of(message, length, message);
    }
    return (seconds() - start) / calls;
}

double ours_permutation(unsigned rows) {
    static uint64_t lanes[25];
    MOVE_STACK();
    double start = seconds();
    for (unsigned i = 0; i < ROW * rows; i++) {
        paddockyear_keccak_f(lanes);
    }
    return (seconds() - start) / ROW / rows;
}

/* The time that one further block takes: a message of ROW + 1 blocks less one of a single block.
 * The single one's is the best of some, for if it were disturbed the others would seem fast. */
double openssl_permutation(unsigned rows) {
    static uint8_t message[RATE * (ROW + 1) - 1];
    double single = INFINITY;
    for (int i = 0; i < SINGLES; i++) {
        single = smaller(time_hash(openssl_sha3_256, message, RATE - 1, rows), single);
    }
    double all = time_hash(openssl_sha3_256, message, sizeof message, rows);
    return (all - single) / ROW;
}
