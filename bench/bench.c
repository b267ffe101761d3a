/* Blocks, tags and records: this library beside mbedTLS and OpenSSL, each with its software cipher.
 *
 *   bench            runs every operation with every library, compares what they computed, and prints nanoseconds
 *   bench OP LIB N   runs operation OP of the list with library LIB, both counted from 0, N times, for a count of instructions
 */
#include <openssl/core_names.h>
#include <openssl/evp.h>
#include <openssl/params.h>
#include <mbedtls/aes.h>
#include <mbedtls/cipher.h>
#include <mbedtls/cmac.h>
#include <stdbool.h>
#include <stdint.h>
#include <stdio.h>
#include <stdlib.h>
#include <string.h>
#include <time.h>

bool measured_encrypt(const uint8_t *key, size_t key_len, uint8_t *block, size_t block_len, uint32_t times);
bool measured_tag(const uint8_t *key, size_t key_len, uint8_t *text, size_t text_len, uint32_t times);
uint32_t measured_records(const uint8_t *root, size_t root_len, const uint8_t *plain, size_t plain_len, uint32_t times);

/* mbedTLS asks this function of its own whether it may use AES instructions: it may not. */
int mbedtls_aesni_has_support(unsigned int what)
{
    (void)what;
    return 0;
}

static const uint8_t KEY[16] = {0x2b, 0x7e, 0x15, 0x16, 0x28, 0xae, 0xd2, 0xa6, 0xab, 0xf7, 0x15, 0x88, 0x09, 0xcf, 0x4f, 0x3c};

/* One library's AES-128 under a key that is expanded, and its AES-CMAC. */
struct library {
    const char *name;
    void *(*cipher)(const uint8_t key[16]);
    void (*block)(void *cipher, const uint8_t in[16], uint8_t out[16]);
    void (*end_cipher)(void *cipher);
    void *(*mac)(const uint8_t key[16]);
    void (*tag)(void *mac, const uint8_t *text, size_t length, uint8_t out[16]);
    void (*end_mac)(void *mac);
};

static void *mbed_cipher(const uint8_t key[16])
{
    mbedtls_aes_context *c = malloc(sizeof *c);
    mbedtls_aes_init(c);
    mbedtls_aes_setkey_enc(c, key, 128);
    return c;
}

static void mbed_block(void *c, const uint8_t in[16], uint8_t out[16]) { mbedtls_aes_crypt_ecb(c, MBEDTLS_AES_ENCRYPT, in, out); }

static void mbed_end_cipher(void *c)
{
    mbedtls_aes_free(c);
    free(c);
}

static void *mbed_mac(const uint8_t key[16])
{
    mbedtls_cipher_context_t *c = malloc(sizeof *c);
    mbedtls_cipher_init(c);
    mbedtls_cipher_setup(c, mbedtls_cipher_info_from_type(MBEDTLS_CIPHER_AES_128_ECB));
    mbedtls_cipher_cmac_starts(c, key, 128);
    return c;
}

static void mbed_tag(void *c, const uint8_t *text, size_t length, uint8_t out[16])
{
    mbedtls_cipher_cmac_reset(c);
    mbedtls_cipher_cmac_update(c, text, length);
    mbedtls_cipher_cmac_finish(c, out);
}

static void mbed_end_mac(void *c)
{
    mbedtls_cipher_free(c);
    free(c);
}

static EVP_MAC *openssl_cmac;

static void *openssl_cipher(const uint8_t key[16])
{
    EVP_CIPHER_CTX *c = EVP_CIPHER_CTX_new();
    EVP_EncryptInit_ex(c, EVP_aes_128_ecb(), NULL, key, NULL);
    EVP_CIPHER_CTX_set_padding(c, 0);
    return c;
}

static void openssl_block(void *c, const uint8_t in[16], uint8_t out[16])
{
    int length;
    EVP_EncryptUpdate(c, out, &length, in, 16);
}

static void openssl_end_cipher(void *c) { EVP_CIPHER_CTX_free(c); }

static void *openssl_mac(const uint8_t key[16])
{
    if (!openssl_cmac)
        openssl_cmac = EVP_MAC_fetch(NULL, "CMAC", NULL);
    EVP_MAC_CTX *c = EVP_MAC_CTX_new(openssl_cmac);
    OSSL_PARAM by[2] = {OSSL_PARAM_construct_utf8_string(OSSL_MAC_PARAM_CIPHER, "AES-128-CBC", 0), OSSL_PARAM_construct_end()};
    EVP_MAC_init(c, key, 16, by);
    return c;
}

static void openssl_tag(void *c, const uint8_t *text, size_t length, uint8_t out[16])
{
    size_t written;
    EVP_MAC_init(c, NULL, 0, NULL);
    EVP_MAC_update(c, text, length);
    EVP_MAC_final(c, out, &written, 16);
}

static void openssl_end_mac(void *c) { EVP_MAC_CTX_free(c); }

static const struct library LIBRARIES[] = {
    {"ours", 0, 0, 0, 0, 0, 0},
    {"mbedTLS", mbed_cipher, mbed_block, mbed_end_cipher, mbed_mac, mbed_tag, mbed_end_mac},
    {"OpenSSL", openssl_cipher, openssl_block, openssl_end_cipher, openssl_mac, openssl_tag, openssl_end_mac},
};

/* The steps of the keyed suite, over another library's cipher. */

static void cmac_once(const struct library *l, const uint8_t key[16], const uint8_t *text, size_t length, uint8_t out[16])
{
    void *mac = l->mac(key);
    l->tag(mac, text, length, out);
    l->end_mac(mac);
}

static void derived(const struct library *l, const uint8_t key[16], uint8_t byte, uint8_t out[16])
{
    uint8_t text[16];
    memset(text, byte, 16);
    cmac_once(l, key, text, 16, out);
}

static void add_stream(const struct library *l, const uint8_t link[16], uint8_t role, uint32_t number, uint8_t *bytes, size_t length)
{
    uint8_t key[16], block[16] = {0}, stream[16];
    derived(l, link, 5, key);
    void *cipher = l->cipher(key);
    block[0] = role;
    for (int i = 0; i < 4; i++)
        block[1 + i] = number >> (24 - 8 * i);
    for (size_t i = 0; i < length; i++) {
        if (i % 16 == 0) {
            block[15] = i / 16;
            l->block(cipher, block, stream);
        }
        bytes[i] ^= stream[i % 16];
    }
    l->end_cipher(cipher);
}

static void field(const struct library *l, const uint8_t link[16], const uint8_t *body, size_t length, uint8_t out[16])
{
    uint8_t key[16];
    derived(l, link, 4, key);
    cmac_once(l, key, body, length, out);
}

static size_t seal(const struct library *l, const uint8_t link[16], uint8_t role, uint32_t number, const uint8_t *plain, size_t length, uint8_t *out)
{
    uint8_t tag[16];
    out[0] = role;
    for (int i = 0; i < 4; i++)
        out[1 + i] = number >> (24 - 8 * i);
    memcpy(out + 5, plain, length);
    add_stream(l, link, role, number, out + 5, length);
    field(l, link, out, length + 5, tag);
    memcpy(out + 5 + length, tag, 8);
    return length + 13;
}

static bool open_record(const struct library *l, const uint8_t link[16], const uint8_t *payload, size_t length, uint8_t *out)
{
    uint8_t tag[16], difference = 0;
    if (length < 13 || (payload[0] != 1 && payload[0] != 2))
        return false;
    field(l, link, payload, length - 8, tag);
    for (int i = 0; i < 8; i++)
        difference |= tag[i] ^ payload[length - 8 + i];
    if (difference)
        return false;
    uint32_t number = (uint32_t)payload[1] << 24 | (uint32_t)payload[2] << 16 | (uint32_t)payload[3] << 8 | payload[4];
    memcpy(out, payload + 5, length - 13);
    add_stream(l, link, payload[0], number, out, length - 13);
    return true;
}

static uint32_t records(const struct library *l, const uint8_t root[16], const uint8_t *plain, size_t length, uint32_t times)
{
    uint8_t offers[32], secret[16], link[16], payload[255], back[255];
    uint32_t crossed = 0;
    memset(offers, 1, 16);
    memset(offers + 16, 2, 16);
    cmac_once(l, root, offers, 32, secret);
    derived(l, secret, 3, link);
    for (uint32_t n = 1; n <= times; n++) {
        size_t sealed = seal(l, link, 1, n, plain, length, payload);
        crossed += open_record(l, link, payload, sealed, back) && !memcmp(back, plain, length);
    }
    return crossed;
}

/* The operations. */

static void encrypt(const struct library *l, uint8_t *block, size_t length, uint32_t times)
{
    if (!l->cipher) {
        if (!measured_encrypt(KEY, 16, block, 16, times))
            exit(1);
        return;
    }
    void *cipher = l->cipher(KEY);
    while (times--)
        l->block(cipher, block, block);
    l->end_cipher(cipher);
    (void)length;
}

static void tag(const struct library *l, uint8_t *text, size_t length, uint32_t times)
{
    uint8_t out[16];
    if (!l->mac) {
        if (!measured_tag(KEY, 16, text, length, times))
            exit(1);
        return;
    }
    void *mac = l->mac(KEY);
    while (times--) {
        l->tag(mac, text, length, out);
        memcpy(text, out, 16);
    }
    l->end_mac(mac);
}

static void cross(const struct library *l, uint8_t *plain, size_t length, uint32_t times)
{
    uint32_t crossed = l->mac ? records(l, KEY, plain, length, times) : measured_records(KEY, 16, plain, length, times);
    if (crossed != times) {
        fprintf(stderr, "a record was lost\n");
        exit(1);
    }
}

static const struct operation {
    const char *name;
    void (*run)(const struct library *, uint8_t *, size_t, uint32_t);
    size_t length;
    uint32_t times;
} OPERATIONS[] = {
    {"block", encrypt, 16, 2000000},       {"tag of 16 bytes", tag, 16, 1000000},
    {"tag of 64 bytes", tag, 64, 400000},  {"tag of 200 bytes", tag, 200, 150000},
    {"record of 1 byte", cross, 1, 60000}, {"record of 16 bytes", cross, 16, 60000},
    {"record of 64 bytes", cross, 64, 40000}, {"record of 200 bytes", cross, 200, 30000},
};

#define COUNT(a) (sizeof(a) / sizeof *(a))

static double seconds(void)
{
    struct timespec t;
    clock_gettime(CLOCK_PROCESS_CPUTIME_ID, &t);
    return t.tv_sec + t.tv_nsec * 1e-9;
}

/* The least of five runs, in nanoseconds an operation. */
static double time_of(const struct operation *o, const struct library *l, uint8_t out[256])
{
    double least = 0;
    for (int run = 0; run < 5; run++) {
        memset(out, 1, 256);
        double start = seconds();
        o->run(l, out, o->length, o->times);
        double took = (seconds() - start) / o->times * 1e9;
        if (run == 0 || took < least)
            least = took;
    }
    return least;
}

int main(int argc, char **argv)
{
    if (argc == 4) {
        uint8_t bytes[256];
        const struct operation *o = &OPERATIONS[atoi(argv[1]) % COUNT(OPERATIONS)];
        memset(bytes, 1, 256);
        o->run(&LIBRARIES[atoi(argv[2]) % COUNT(LIBRARIES)], bytes, o->length, atoi(argv[3]));
        return 0;
    }
    for (size_t i = 0; i < COUNT(OPERATIONS); i++) {
        uint8_t first[256], other[256];
        printf("%s", OPERATIONS[i].name);
        for (size_t j = 0; j < COUNT(LIBRARIES); j++) {
            printf("\t%.0f", time_of(&OPERATIONS[i], &LIBRARIES[j], j ? other : first));
            if (j && memcmp(first, other, 16)) {
                fprintf(stderr, "%s: %s computed something else\n", OPERATIONS[i].name, LIBRARIES[j].name);
                return 1;
            }
        }
        printf("\n");
    }
    return 0;
}
