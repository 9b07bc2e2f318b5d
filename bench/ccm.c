/* The peer of crates/ccm_bench: the same input, opened by mbedTLS. Written against mbedTLS 2.28's public interface. */
#include <mbedtls/ccm.h>
#include <mbedtls/version.h>
#include <stdio.h>
#include <string.h>

static unsigned asked;

/* Takes the place of the library's own test, so that it uses its tables and no AES instructions. */
int mbedtls_aesni_has_support(unsigned int what) {
    (void)what;
    asked++;
    return 0;
}

int main(void) {
    unsigned char in[128] = {0}, plain[64];
    mbedtls_ccm_context ccm;
    if (fread(in, 1, sizeof in, stdin) < 6) return 2;
    unsigned rounds = in[0] + 256u * in[1], each = in[2], opened = 0;
    size_t at = in[3], n = in[4], tag = in[5];
    const unsigned char *key = in + 6, *nonce = in + 22, *frame = in + 35;
    if (at + n + tag > 64) return 2;
    mbedtls_ccm_init(&ccm);
    if (!each) mbedtls_ccm_setkey(&ccm, MBEDTLS_CIPHER_ID_AES, key, 128);
    for (unsigned i = 0; i < rounds; i++) {
        if (each) mbedtls_ccm_setkey(&ccm, MBEDTLS_CIPHER_ID_AES, key, 128);
        opened += mbedtls_ccm_auth_decrypt(&ccm, n, nonce, 13, frame, at, frame + at, plain, frame + at + n, tag) == 0;
    }
    if (rounds && !asked) fputs("the library did not ask: AES instructions may be on\n", stderr);
    printf("%u\n", opened);
    return rounds && !asked;
}
