/* Frames and states that the benchmarks share. A secured NWK frame of n bytes: header 8, auxiliary header 14, payload, tag 4.
   A secured APS frame: header 8, auxiliary header 13, payload, tag 4. */
#include "../gateway/pouchkettle.h"
#include <stdio.h>
#include <stdlib.h>
#include <string.h>
#define LOGGER UINT64_C(0x0011223344556677)
#define GATEWAY UINT64_C(0x8899aabbccddeeff)
#define LONGEST 1024
static const uint8_t KEY[16] = "sixteen octets!!";

static struct pouchkettle_nwk nwk_of(uint64_t own) {
    struct pouchkettle_nwk s = {.level = 5, .own = own, .active = 7, .keys = {.used = 1}};
    s.keys.rows[0].number = 7;
    memcpy(s.keys.rows[0].key, KEY, sizeof KEY);
    return s;
}

static void fill(uint8_t *plain, const uint8_t *header, size_t len) {
    memcpy(plain, header, 8);
    for (size_t i = 8; i < len; i++) plain[i] = (uint8_t)(7 * i + 1);
}

/* the plain frame that is so many bytes long once it is secured */
static size_t plain_nwk(uint8_t *plain, size_t secured) {
    static const uint8_t header[8] = {0x08, 0x02, 0, 0, 0x34, 0x12, 0x1e, 1};
    fill(plain, header, secured - 18);
    return secured - 18;
}

static size_t plain_aps(uint8_t *plain, size_t secured) {
    static const uint8_t header[8] = {0x20, 1, 6, 0, 4, 1, 1, 9};
    fill(plain, header, secured - 17);
    return secured - 17;
}

/* so many rows of strangers, and the one that is asked for last */
static void fill_rows(struct pouchkettle_counter_row *rows, size_t used, uint64_t last) {
    for (size_t i = 0; i < used; i++) rows[i] = (struct pouchkettle_counter_row){7, 0x1000 + i, 5};
    rows[used - 1].sender = last;
}

static struct pouchkettle_pairs pairs_of(size_t used, uint64_t last) {
    struct pouchkettle_pairs pairs = {.used = used};
    for (size_t i = 0; i < used; i++) {
        pairs.rows[i] = (struct pouchkettle_pair_row){.device = 0x1000 + i, .attribute = 2, .outgoing = 8};
        memcpy(pairs.rows[i].key, KEY, sizeof KEY);
    }
    pairs.rows[used - 1].device = last;
    return pairs;
}
