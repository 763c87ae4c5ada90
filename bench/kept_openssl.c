/* Runs a subject of fle_bench by OpenSSL with everything kept, over the same turns: the cipher's context and the states
 * behind the pads of both HMAC keys. It takes the words of fle_bench and prints its line: the first 8 digits of the
 * SHA-256 digest of the last answer.
 *
 *     kept_openssl cbc-seal-tables 1024 100000
 *
 * It knows cbc-DIRECTION-WAY, hmac-SETUP, aead-DIRECTION-SETUP and payload-DIRECTION-ALGORITHM, with the same run for
 * each WAY and SETUP. */
#define OPENSSL_SUPPRESS_DEPRECATED
#include <openssl/evp.h>
#include <openssl/hmac.h>
#include <openssl/sha.h>
#include <stdint.h>
#include <stdio.h>
#include <stdlib.h>
#include <string.h>

/* SP 800-38A, F.2.5 */
static const unsigned char cbc_key[32] = {0x60, 0x3d, 0xeb, 0x10, 0x15, 0xca, 0x71, 0xbe, 0x2b, 0x73, 0xae,
                                          0xf0, 0x85, 0x7d, 0x77, 0x81, 0x1f, 0x35, 0x2c, 0x07, 0x3b, 0x61,
                                          0x08, 0xd7, 0x2d, 0x98, 0x10, 0xa3, 0x09, 0x14, 0xdf, 0xf4};
static const unsigned char counting[16] = {0, 1, 2, 3, 4, 5, 6, 7, 8, 9, 10, 11, 12, 13, 14, 15};
static const unsigned char key_id[16] = {0x00, 0x11, 0x22, 0x33, 0x44, 0x55, 0x46, 0x77,
                                         0x88, 0x99, 0xaa, 0xbb, 0xcc, 0xdd, 0xee, 0xff};
static const unsigned char bits[8] = {0, 0, 0, 0, 0, 0, 0, 144};
static unsigned char key[96];
static HMAC_CTX *mac, *iv_mac, *running;
static EVP_CIPHER_CTX *sealing, *opening;

static void die(const char *what) {
    fprintf(stderr, "kept_openssl: %s\n", what);
    exit(1);
}

/* The MAC of up to three parts from a kept state. */
static void mac_of(HMAC_CTX *kept, const unsigned char *a, size_t na, const unsigned char *b, size_t nb,
                 const unsigned char *c, size_t nc, unsigned char out[64]) {
    unsigned size = 64;
    if (!HMAC_CTX_copy(running, kept) || !HMAC_Update(running, a, na) || !HMAC_Update(running, b, nb) ||
        !HMAC_Update(running, c, nc) || !HMAC_Final(running, out, &size))
        die("HMAC");
}

static HMAC_CTX *begun(const unsigned char *k) {
    HMAC_CTX *kept = HMAC_CTX_new();
    if (!kept || !HMAC_Init_ex(kept, k, 32, EVP_sha512(), NULL)) die("HMAC");
    return kept;
}

static void ciphers(const unsigned char *k) {
    sealing = EVP_CIPHER_CTX_new();
    opening = EVP_CIPHER_CTX_new();
    if (!sealing || !opening || !EVP_EncryptInit_ex(sealing, EVP_aes_256_cbc(), NULL, k, NULL) ||
        !EVP_DecryptInit_ex(opening, EVP_aes_256_cbc(), NULL, k, NULL))
        die("AES");
}

/* CBC with padding. */
static size_t encrypted(const unsigned char *iv, const unsigned char *plain, size_t size, unsigned char *out) {
    int n = 0, rest = 0;
    if (!EVP_EncryptInit_ex(sealing, NULL, NULL, NULL, iv) || !EVP_EncryptUpdate(sealing, out, &n, plain, (int)size) ||
        !EVP_EncryptFinal_ex(sealing, out + n, &rest))
        die("AES");
    return (size_t)(n + rest);
}

/* A value: IV, blocks, tag, with 18 bytes of associated data; the IV is derived where none is given. */
static size_t seal(const unsigned char *iv, const unsigned char aad[18], const unsigned char *plain, size_t size,
                   unsigned char *out) {
    unsigned char sum[64];
    if (iv) {
        memcpy(out, iv, 16);
    } else {
        mac_of(iv_mac, aad, 18, bits, 8, plain, size, sum);
        memcpy(out, sum, 16);
    }
    size_t n = 16 + encrypted(out, plain, size, out + 16);
    mac_of(mac, aad, 18, out, n, bits, 8, sum);
    memcpy(out + n, sum, 32);
    return n + 32;
}

static void open_value(const unsigned char aad[18], const unsigned char *sealed, size_t size, unsigned char *out) {
    unsigned char sum[64];
    int n = 0, rest = 0;
    mac_of(mac, aad, 18, sealed, size - 32, bits, 8, sum);
    if (CRYPTO_memcmp(sum, sealed + size - 32, 32)) die("tag");
    if (!EVP_DecryptInit_ex(opening, NULL, NULL, NULL, sealed) ||
        !EVP_DecryptUpdate(opening, out, &n, sealed + 16, (int)(size - 48)) ||
        !EVP_DecryptFinal_ex(opening, out + n, &rest))
        die("AES");
}

static void print_line(char **words, const unsigned char *bytes, size_t size) {
    unsigned char digest[32];
    SHA256(bytes, size, digest);
    printf("%s %s %s %02x%02x%02x%02x\n", words[1], words[2], words[3], digest[0], digest[1], digest[2], digest[3]);
}

/* The last block of each answer is the next IV. */
static void cbc_seal(char **words, const unsigned char *plain, size_t size, unsigned long turns, unsigned char *out) {
    unsigned char iv[16];
    size_t n = 16 * (size / 16 + 1);
    memcpy(iv, counting, 16);
    for (unsigned long turn = 0; turn < turns; turn++) {
        encrypted(iv, plain, size, out);
        memcpy(iv, out + n - 16, 16);
    }
    print_line(words, out, n);
}

/* The same is decrypted in each turn; its padding is left. */
static void cbc_open(char **words, const unsigned char *plain, size_t size, unsigned long turns, unsigned char *sealed,
                     unsigned char *out) {
    size_t n = encrypted(counting, plain, size, sealed);
    for (unsigned long turn = 0; turn < turns; turn++) {
        int some = 0;
        if (!EVP_DecryptInit_ex(opening, NULL, NULL, NULL, counting) || !EVP_CIPHER_CTX_set_padding(opening, 0) ||
            !EVP_DecryptUpdate(opening, out, &some, sealed, (int)n) || (size_t)some != n)
            die("AES");
    }
    print_line(words, out, n);
}

/* The last 16 bytes of each MAC stand in place of the next text's first 16. */
static void macs(char **words, const unsigned char *text, size_t size, unsigned long turns) {
    unsigned char sum[64] = {0}, block[16];
    if (size < 16) die("the message of a MAC is shorter than 16 bytes");
    memcpy(block, counting, 16);
    for (unsigned long turn = 0; turn < turns; turn++) {
        mac_of(mac, block, 16, text + 16, size - 16, NULL, 0, sum);
        memcpy(block, sum + 48, 16);
    }
    print_line(words, sum, 64);
}

/* Of a value the last 18 bytes of each answer are the next associated data, of a payload the last 16 the next id. */
static void sealed_turns(char **words, int payload, const unsigned char *iv, unsigned char aad[18],
                         const unsigned char *plain, size_t size, unsigned long turns, unsigned char *out) {
    size_t n = (payload ? 66 : 48) + 16 * (size / 16 + 1);
    for (unsigned long turn = 0; turn < turns; turn++) {
        if (payload) {
            memcpy(out, aad, 18);
            seal(iv, aad, plain, size, out + 18);
            memcpy(aad + 1, out + n - 16, 16);
        } else {
            seal(iv, aad, plain, size, out);
            memcpy(aad, out + n - 18, 18);
        }
    }
    print_line(words, out, n);
}

static void opened_turns(char **words, const unsigned char *iv, const unsigned char aad[18], const unsigned char *plain,
                         size_t size, unsigned long turns, unsigned char *sealed, unsigned char *out) {
    size_t n = seal(iv, aad, plain, size, sealed);
    for (unsigned long turn = 0; turn < turns; turn++) open_value(aad, sealed, n, out);
    print_line(words, out, size);
}

/* A payload's value is a binary of subtype 00 that has the message as its contents. */
static size_t in_binary(unsigned char *bytes, size_t contents) {
    memmove(bytes + 5, bytes, contents);
    for (int i = 0; i < 4; i++) bytes[i] = (unsigned char)(contents >> (8 * i));
    bytes[4] = 0;
    return contents + 5;
}

int main(int count, char **words) {
    if (count != 4) die("SUBJECT BYTES TURNS");
    int opens = strstr(words[1], "open") != NULL, payload = !strncmp(words[1], "payload", 7);
    int random = strstr(words[1], "random") != NULL;
    size_t size = strtoul(words[2], NULL, 10);
    unsigned long turns = strtoul(words[3], NULL, 10);
    unsigned char aad[18], *plain = malloc(size + 5), *out = calloc(1, size + 100), *next = calloc(1, size + 100);
    running = HMAC_CTX_new();
    if (!plain || !out || !next || !running) die("memory");
    for (int i = 0; i < 96; i++) key[i] = (unsigned char)(0x80 + i);
    for (size_t i = 0; i < size; i++) plain[i] = (unsigned char)(i % 251);
    if (!strncmp(words[1], "cbc", 3)) {
        ciphers(cbc_key);
        opens ? cbc_open(words, plain, size, turns, out, next) : cbc_seal(words, plain, size, turns, out);
    } else if (!strncmp(words[1], "hmac", 4)) {
        mac = begun(cbc_key);
        macs(words, plain, size, turns);
    } else if (payload || !strncmp(words[1], "aead", 4)) {
        const unsigned char *iv = random ? counting : NULL;
        ciphers(key + 32);
        mac = begun(key);
        iv_mac = begun(key + 64);
        aad[0] = random ? 2 : 1;
        memcpy(aad + 1, key_id, 16);
        aad[17] = payload ? 5 : 2;
        if (payload) size = in_binary(plain, size);
        opens ? opened_turns(words, iv, aad, plain, size, turns, out, next)
              : sealed_turns(words, payload, iv, aad, plain, size, turns, out);
    } else {
        die("there is no such subject");
    }
    return 0;
}
