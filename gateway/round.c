/* The same from C: an NWK frame goes out and comes in again, and its copy is refused; a hash in two parts, and its limit. */
#include "pouchkettle.h"
#include <stdio.h>
#include <string.h>

#define LOGGER UINT64_C(0x0011223344556677)

static struct pouchkettle_nwk nwk(uint64_t own) {
    struct pouchkettle_nwk state = {.level = 5, .own = own, .active = 7, .keys = {.used = 1}};
    state.keys.rows[0].number = 7;
    memcpy(state.keys.rows[0].key, "sixteen octets!!", 16);
    return state;
}

/* the Zigbee specification's C.5.2: 0xC0 to 0xCF */
static int firmware(void) {
    static const uint8_t value[16] = {0xa7, 0x97, 0x7e, 0x88, 0xbc, 0x0b, 0x61, 0xe8, 0x21, 0x08, 0x27, 0x10, 0x9a, 0x22, 0x8f, 0x2d};
    uint8_t text[16];
    for (int i = 0; i < 16; i++) text[i] = (uint8_t)(0xc0 + i);
    struct pouchkettle_told_hashing first = pouchkettle_hash_add(pouchkettle_hash_start(), text, 5);
    struct pouchkettle_told_hashing second = pouchkettle_hash_add(first.state, text + 5, 11);
    struct pouchkettle_told_digest digest = pouchkettle_hash_finish(second.state);
    if (first.number != 0 || first.state.total != 5 || memcmp(first.state.tail, text, 5) != 0 || second.number != 0) return 0;
    if (digest.number != 0 || memcmp(digest.value, value, 16) != 0) return 0;
    struct pouchkettle_hashing last = pouchkettle_hash_start_from(text, 16);
    last.total = 536870911;
    struct pouchkettle_told_hashing refused = pouchkettle_hash_add(last, text, 1);
    return memcmp(last.value, text, 16) == 0 && refused.number == 7 && memcmp(&refused.state, &last, sizeof last) == 0;
}

int main(void) {
    const uint8_t plain[12] = {0x08, 0x02, 0, 0, 0x34, 0x12, 0x1e, 1, '2', '1', '.', '5'};
    struct pouchkettle_outgoing outgoing = {41};
    struct pouchkettle_counter_row rows[3] = {{0}};
    uint8_t frame[40], copy[40];
    struct pouchkettle_told sent = pouchkettle_secure_nwk(nwk(LOGGER), &outgoing, plain, sizeof plain, frame, sizeof frame);
    if (sent.number != 0 || sent.len != 30 || outgoing.next != 42) return 1;
    memcpy(copy, frame, sizeof frame);
    struct pouchkettle_told_nwk opened = pouchkettle_open_nwk(nwk(1), rows, 3, 0, frame, sent.len);
    if (opened.told.number != 0 || opened.told.start != 22 || opened.told.len != 4 || memcmp(frame + 22, "21.5", 4) != 0) return 2;
    if (opened.used != 1 || opened.active != 7 || rows[0].sender != LOGGER || rows[0].counter != 41) return 3;
    if (pouchkettle_open_nwk(nwk(1), rows, 3, opened.used, copy, sent.len).told.number != 33) return 4;
    if (!firmware()) return 5;
    puts("from C: as promised");
    return 0;
}
