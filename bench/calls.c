/* Every exported call, and CCM alone of mbedTLS (-DMBEDTLS) and OpenSSL (-DOPENSSL):
     calls names                      the contenders, a line each: whether rows matter to it, and its name
     calls count NAME TIMES LEN ROWS  makes so many calls
     calls time LEN ROWS              best time of each in nanoseconds, all interleaved in one run
   LEN is the secured frame's length, ROWS the rows in use, of which the last is the one asked for. Every answer is looked at. */
#include "frames.h"
#include <time.h>
#ifdef MBEDTLS
#include <mbedtls/ccm.h>
#endif
#ifdef OPENSSL
#include <openssl/evp.h>
#endif

static size_t len, aps_len, rows_used, plain_len, aps_plain_len;
static uint8_t plain[LONGEST], aps_plain[LONGEST], air[LONGEST], aps_air[LONGEST], buffer[LONGEST];
static struct pouchkettle_counter_row rows[64];
static struct pouchkettle_nwk gateway, logger;
static struct pouchkettle_aps aps_gateway = {5, GATEWAY}, aps_logger = {5, LOGGER};
static struct pouchkettle_pairs gateway_pairs, logger_pairs;
static long wrong;

static void expect(int is, int should) { wrong += is != should; }

static void open_held(uint32_t held, int answer) {
    rows[rows_used - 1].counter = held;
    expect(pouchkettle_open_nwk(gateway, rows, 64, rows_used, buffer, len).told.number, answer);
}

static void open_nwk(void) { memcpy(buffer, air, len); open_held(5, 0); }
static void open_copy(void) { memcpy(buffer, air, len); open_held(41, 33); }
static void open_forged(void) { memcpy(buffer, air, len); buffer[len - 1] ^= 1; open_held(5, 5); }

static void secure_nwk(void) {
    struct pouchkettle_outgoing outgoing = {41};
    expect(pouchkettle_secure_nwk(logger, &outgoing, plain, plain_len, buffer, sizeof buffer).number, 0);
}

static void open_aps(void) {
    memcpy(buffer, aps_air, aps_len);
    expect(pouchkettle_open_aps(aps_gateway, gateway_pairs, buffer, aps_len).told.number, 0);
}

static void secure_aps(void) {
    expect(pouchkettle_secure_aps(aps_logger, logger_pairs, GATEWAY, true, aps_plain, aps_plain_len, buffer, sizeof buffer).told.number, 0);
}

static void forget(void) { expect(pouchkettle_forget(rows, 64, rows_used, 9).number, 0); }
static void reset(void) { expect((int)pouchkettle_reset((struct pouchkettle_outgoing){41}).next, 41); }

/* the frame's octets as a part of a firmware file, from a state in which five octets wait */
static struct pouchkettle_hashing waiting;
static void hash_start(void) { expect((int)pouchkettle_hash_start().total, 0); }
static void hash_start_from(void) { expect((int)pouchkettle_hash_start_from(air, 16).total, 0); }
static void hash_add(void) { expect(pouchkettle_hash_add(waiting, air, len).number, 0); }
static void hash_finish(void) { expect(pouchkettle_hash_finish(waiting).number, 0); }

/* the nonce and the associated data of the frame, for CCM alone */
static uint8_t nonce[13], associated[22];

#ifdef MBEDTLS
static mbedtls_ccm_context tables, tables_each, instructions, instructions_each;
static int use_instructions;
static long asked;

/* Takes the place of the library's own test of the processor. */
int mbedtls_aesni_has_support(unsigned int what) { (void)what; asked++; return use_instructions; }

static void mbedtls_opens(mbedtls_ccm_context *ccm, int with, int key) {
    use_instructions = with;
    if (key) mbedtls_ccm_setkey(ccm, MBEDTLS_CIPHER_ID_AES, KEY, 128);
    memcpy(buffer, air, len);
    expect(mbedtls_ccm_auth_decrypt(ccm, len - 26, nonce, 13, associated, 22, buffer + 22, buffer + 22, buffer + len - 4, 4), 0);
}

static void mbedtls_tables_once(void) { mbedtls_opens(&tables, 0, 0); }
static void mbedtls_tables_each(void) { mbedtls_opens(&tables_each, 0, 1); }
static void mbedtls_aes_once(void) { mbedtls_opens(&instructions, 1, 0); }
static void mbedtls_aes_each(void) { mbedtls_opens(&instructions_each, 1, 1); }

static void begin_mbedtls(void) {
    mbedtls_ccm_context *all[] = {&tables, &tables_each, &instructions, &instructions_each};
    for (int i = 0; i < 4; i++) {
        mbedtls_ccm_init(all[i]);
        use_instructions = i > 1;
        mbedtls_ccm_setkey(all[i], MBEDTLS_CIPHER_ID_AES, KEY, 128);
    }
}
#endif

#ifdef OPENSSL
static EVP_CIPHER_CTX *evp;

static void openssl_opens(const uint8_t *key) {
    int n;
    memcpy(buffer, air, len);
    EVP_CIPHER_CTX_ctrl(evp, EVP_CTRL_AEAD_SET_TAG, 4, buffer + len - 4);
    expect(EVP_DecryptInit_ex(evp, NULL, NULL, key, nonce), 1);
    EVP_DecryptUpdate(evp, NULL, &n, NULL, (int)len - 26);
    EVP_DecryptUpdate(evp, NULL, &n, associated, 22);
    expect(EVP_DecryptUpdate(evp, buffer + 22, &n, buffer + 22, (int)len - 26), 1);
}

static void openssl_once(void) { openssl_opens(NULL); }
static void openssl_each(void) { openssl_opens(KEY); }

static void begin_openssl(void) {
    evp = EVP_CIPHER_CTX_new();
    EVP_DecryptInit_ex(evp, EVP_aes_128_ccm(), NULL, NULL, NULL);
    EVP_CIPHER_CTX_ctrl(evp, EVP_CTRL_AEAD_SET_IVLEN, 13, NULL);
    EVP_CIPHER_CTX_ctrl(evp, EVP_CTRL_AEAD_SET_TAG, 4, air + len - 4);
    EVP_DecryptInit_ex(evp, NULL, NULL, KEY, nonce);
}
#endif

static const struct contender { const char *rows, *name; void (*call)(void); } contenders[] = {
    {"rows", "open_nwk", open_nwk},
    {"rows", "open_nwk-a-copy", open_copy},
    {"rows", "open_nwk-a-wrong-tag", open_forged},
    {"-", "secure_nwk", secure_nwk},
    {"rows", "open_aps", open_aps},
    {"rows", "secure_aps", secure_aps},
    {"rows", "forget", forget},
    {"-", "reset", reset},
    {"-", "hash_start", hash_start},
    {"-", "hash_start_from", hash_start_from},
    {"-", "hash_add", hash_add},
    {"-", "hash_finish", hash_finish},
#ifdef MBEDTLS
    {"-", "mbedTLS-tables-key-once", mbedtls_tables_once},
    {"-", "mbedTLS-tables-key-each-time", mbedtls_tables_each},
    {"-", "mbedTLS-AES-instructions-key-once", mbedtls_aes_once},
    {"-", "mbedTLS-AES-instructions-key-each-time", mbedtls_aes_each},
#endif
#ifdef OPENSSL
    {"-", "OpenSSL-key-once", openssl_once},
    {"-", "OpenSSL-key-each-time", openssl_each},
#endif
};
#define CONTENDERS ((int)(sizeof contenders / sizeof *contenders))

static void begin(size_t n, size_t used) {
    struct pouchkettle_outgoing outgoing = {41};
    size_t pairs = used < 16 ? used : 16;
    len = n, rows_used = used, aps_len = n < LONGEST ? n : LONGEST - 1; /* the longest secured APS frame is a byte shorter */
    gateway = nwk_of(GATEWAY), logger = nwk_of(LOGGER);
    plain_len = plain_nwk(plain, len), aps_plain_len = plain_aps(aps_plain, aps_len);
    fill_rows(rows, used, LOGGER);
    gateway_pairs = pairs_of(pairs, LOGGER), logger_pairs = pairs_of(pairs, GATEWAY);
    expect(pouchkettle_secure_nwk(logger, &outgoing, plain, plain_len, air, sizeof air).number, 0);
    expect(pouchkettle_secure_aps(aps_logger, logger_pairs, GATEWAY, true, aps_plain, aps_plain_len, aps_air, sizeof aps_air).told.number, 0);
    waiting = pouchkettle_hash_add(pouchkettle_hash_start(), air, 5).state;
    memcpy(associated, air, 22), associated[8] |= 5;
    memcpy(nonce, air + 13, 8), memcpy(nonce + 8, air + 9, 4), nonce[12] = associated[8];
#ifdef MBEDTLS
    begin_mbedtls();
#endif
#ifdef OPENSSL
    begin_openssl();
#endif
}

static double now(void) {
    struct timespec t;
    clock_gettime(CLOCK_MONOTONIC, &t);
    return 1e9 * (double)t.tv_sec + (double)t.tv_nsec;
}

static void time_all(void) {
    enum { ROUNDS = 3000, BATCH = 50 };
    double best[CONTENDERS];
    for (int i = 0; i < CONTENDERS; i++) best[i] = 1e30;
    for (int round = 0; round < ROUNDS; round++)
        for (int i = 0; i < CONTENDERS; i++) {
            contenders[i].call();
            double from = now();
            for (int k = 0; k < BATCH; k++) contenders[i].call();
            double took = (now() - from) / BATCH;
            if (took < best[i]) best[i] = took;
        }
    for (int i = 0; i < CONTENDERS; i++) printf("%s %.1f\n", contenders[i].name, best[i]);
}

static int count(const char *name, long times) {
    for (int i = 0; i < CONTENDERS; i++)
        if (!strcmp(contenders[i].name, name)) {
            while (times-- > 0) contenders[i].call();
            return 0;
        }
    return 2;
}

int main(int argc, char **argv) {
    int status = 2;
    if (argc == 2 && !strcmp(argv[1], "names")) {
        for (int i = 0; i < CONTENDERS; i++) printf("%s %s\n", contenders[i].rows, contenders[i].name);
        return 0;
    }
    if (argc == 6 && !strcmp(argv[1], "count")) {
        begin((size_t)atol(argv[4]), (size_t)atol(argv[5]));
        status = count(argv[2], atol(argv[3]));
    } else if (argc == 4 && !strcmp(argv[1], "time")) {
        begin((size_t)atol(argv[2]), (size_t)atol(argv[3]));
        time_all();
        status = 0;
    }
    if (wrong) fprintf(stderr, "calls: %ld answers were not as they should be\n", wrong);
#ifdef MBEDTLS
    if (!asked) fputs("calls: mbedTLS did not ask for AES instructions, so its two forms are not told apart\n", stderr), status = 1;
#endif
    return wrong ? 1 : status;
}
