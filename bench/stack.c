/* How many bytes of stack each exported call writes below its caller's frame, structs by value included: the stack is painted
   before the call, and what is no longer paint was used. Prints a line each: the frame's length, the call, its answer, the bytes. */
#include "frames.h"
#include <ucontext.h>
#define PAINT 0xa5
static uint8_t stack[262144] __attribute__((aligned(64)));
static ucontext_t outside, inside;
static uint8_t *caller;
static int number;
static size_t len, aps_len, rows_used, plain_len;
static uint8_t plain[LONGEST], air[LONGEST], buffer[LONGEST];
static struct pouchkettle_counter_row rows[64];
static struct pouchkettle_pairs pairs;

/* the results are kept outside, so that only the call itself counts */
static struct pouchkettle_told told;
static struct pouchkettle_told_nwk told_nwk;
static struct pouchkettle_told_aps told_aps;
static struct pouchkettle_told_rows told_rows;
static struct pouchkettle_outgoing outgoing;
static struct pouchkettle_nwk state;
static struct pouchkettle_hashing hashing;
static struct pouchkettle_told_hashing told_hashing;
static struct pouchkettle_told_digest told_digest;
static struct pouchkettle_aps aps;
#define FROM_HERE caller = __builtin_frame_address(0)

static void open_nwk(void) { FROM_HERE; told_nwk = pouchkettle_open_nwk(state, rows, 64, rows_used, buffer, len); number = told_nwk.told.number; }
static void secure_nwk(void) { FROM_HERE; told = pouchkettle_secure_nwk(state, &outgoing, plain, plain_len, buffer, sizeof buffer); number = told.number; }
static void open_aps(void) { FROM_HERE; told_aps = pouchkettle_open_aps(aps, pairs, buffer, aps_len); number = told_aps.told.number; }
static void secure_aps(void) { FROM_HERE; told_aps = pouchkettle_secure_aps(aps, pairs, GATEWAY, true, plain, plain_len, buffer, sizeof buffer); number = told_aps.told.number; }
static void forget(void) { FROM_HERE; told_rows = pouchkettle_forget(rows, 64, rows_used, 9); number = told_rows.number; }
static void reset(void) { FROM_HERE; outgoing = pouchkettle_reset(outgoing); number = 0; }

static void hash_start(void) { FROM_HERE; hashing = pouchkettle_hash_start(); number = 0; }
static void hash_start_from(void) { FROM_HERE; hashing = pouchkettle_hash_start_from(air, 16); number = 0; }
static void hash_add(void) { FROM_HERE; told_hashing = pouchkettle_hash_add(hashing, air, len); number = told_hashing.number; }
static void hash_finish(void) { FROM_HERE; told_digest = pouchkettle_hash_finish(hashing); number = told_digest.number; }

static void measure(const char *name, void (*call)(void)) {
    memset(stack, PAINT, sizeof stack);
    getcontext(&inside);
    inside.uc_stack.ss_sp = stack, inside.uc_stack.ss_size = sizeof stack, inside.uc_link = &outside;
    makecontext(&inside, call, 0);
    swapcontext(&outside, &inside);
    size_t untouched = 0;
    while (untouched < sizeof stack && stack[untouched] == PAINT) untouched++;
    printf("%zu %s %d %ld\n", len, name, number, (long)(caller - (stack + untouched)));
}

static void nwk(void) {
    state = nwk_of(LOGGER), outgoing.next = 41, plain_len = plain_nwk(plain, len), rows_used = 1;
    measure("secure_nwk", secure_nwk);
    memcpy(air, buffer, len);
    state = nwk_of(GATEWAY);
    fill_rows(rows, 1, LOGGER);
    measure("open_nwk", open_nwk);
    memcpy(buffer, air, len);
    measure("open_nwk-a-copy", open_nwk);
    memcpy(buffer, air, len);
    fill_rows(rows, 64, 0x2000), rows_used = 64;
    measure("open_nwk-table-full", open_nwk);
    measure("forget", forget);
    measure("reset", reset);
}

static void hashes(void) {
    measure("hash_start_from", hash_start_from);
    measure("hash_start", hash_start);
    measure("hash_add", hash_add);
    measure("hash_finish", hash_finish);
}

/* command: a Transport-Key command, whose key is a keyed hash; else data */
static void aps_calls(int command) {
    aps_len = len < LONGEST ? len : LONGEST - 1;
    aps = (struct pouchkettle_aps){5, LOGGER}, pairs = pairs_of(1, GATEWAY), plain_len = plain_aps(plain, aps_len);
    if (command) plain[0] = 0x21, plain[2] = 0x05, plain[3] = 0x01;
    measure(command ? "secure_aps-keyed-hash" : "secure_aps", secure_aps);
    aps_len = told_aps.told.len;
    aps.own = GATEWAY, pairs = pairs_of(1, LOGGER);
    measure(command ? "open_aps-keyed-hash" : "open_aps", open_aps);
}

int main(void) {
    static const size_t lengths[] = {60, 127, LONGEST};
    for (int i = 0; i < 3; i++) len = lengths[i], nwk(), aps_calls(0), aps_calls(1), hashes();
    return 0;
}
