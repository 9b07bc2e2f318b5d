/* An AES-MMO hash over OpenSSL's AES, for bench/hash to count the instructions of: standard input to its end, the value in hex.
   `peer tables` uses AES_encrypt, which has no AES instructions; `peer evp` uses EVP, and says on standard error whether AES
   instructions were on. Written from annex B.6, with nothing of the project. */
#define OPENSSL_SUPPRESS_DEPRECATED
#include <openssl/aes.h>
#include <openssl/crypto.h>
#include <openssl/evp.h>
#include <stdint.h>
#include <stdio.h>
#include <stdlib.h>
#include <string.h>
#include <unistd.h>

static EVP_CIPHER_CTX *context;

static void block(const uint8_t key[16], const uint8_t in[16], uint8_t out[16]) {
    if (context) {
        int size;
        if (!EVP_EncryptInit_ex(context, NULL, NULL, key, NULL) || !EVP_EncryptUpdate(context, out, &size, in, 16)) exit(3);
        return;
    }
    AES_KEY keys;
    AES_set_encrypt_key(key, 128, &keys);
    AES_encrypt(in, out, &keys);
}

static void step(uint8_t hash[16], const uint8_t in[16]) {
    uint8_t out[16];
    block(hash, in, out);
    for (int i = 0; i < 16; i++) hash[i] = out[i] ^ in[i];
}

/* 1, then zeros to 7n or 5n (mod 8n) bits with n = 16, then the length */
static size_t pad(uint8_t *at, size_t waiting, uint64_t total) {
    size_t field = total < 8192 ? 2 : 6, end = (waiting + 1 + field + 15) / 16 * 16;
    uint64_t bits = total * 8 << (field == 6 ? 16 : 0);
    memset(at + waiting, 0, end - waiting);
    at[waiting] = 0x80;
    for (size_t i = 0; i < field; i++) at[end - 1 - i] = (uint8_t)(bits >> 8 * i);
    return end;
}

int main(int count, char **words) {
    static uint8_t part[4096 + 32];
    uint8_t hash[16] = {0};
    uint64_t total = 0;
    size_t waiting = 0;
    ssize_t got;
    if (count == 2 && strcmp(words[1], "evp") == 0) {
        const char *said = OPENSSL_info(OPENSSL_INFO_CPU_SETTINGS);
        const char *mask = said ? strstr(said, "0x") : NULL;
        fprintf(stderr, "AES instructions %s\n", mask && strtoull(mask, NULL, 16) >> 57 & 1 ? "on" : "off");
        context = EVP_CIPHER_CTX_new();
        if (!context || !EVP_EncryptInit_ex(context, EVP_aes_128_ecb(), NULL, hash, NULL)) return 3;
    }
    while ((got = read(0, part + waiting, 4096)) > 0) {
        size_t have = waiting + (size_t)got, at = 0;
        total += (uint64_t)got;
        for (; at + 16 <= have; at += 16) step(hash, part + at);
        memmove(part, part + at, have - at);
        waiting = have - at;
    }
    if (got < 0) return 2;
    size_t end = pad(part, waiting, total);
    for (size_t at = 0; at < end; at += 16) step(hash, part + at);
    for (int i = 0; i < 16; i++) printf("%02x", hash[i]);
    putchar('\n');
    return 0;
}
