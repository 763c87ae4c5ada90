/* Seals or opens one binary some times over with libmongocrypt's explicit encryption, for bench/run to time:
 *     explicit_encryption seal|open deterministic|random BYTES TURNS
 * BYTES is the length of the binary's contents, which count up from 0 to 250, again and again; the key and
 * its id are those of fle_bench. Prints the number of bytes of the last payload or value, and exits with 1 where
 * the library refuses. Each turn seals or opens the same, since the library takes a key id only where it has the key,
 * and draws its IVs: the answers of fle_bench, whose turns are fed by one another, aren't its own. */
#include <bson/bson.h>
#include <mongocrypt.h>
#include <stdio.h>
#include <stdlib.h>
#include <string.h>

/* A key document: the data key 80 to DF, sealed under the local master key 00 to 5F. */
static const char key_document[] =
    "2b010000055f696400100000000400112233445546778899aabbccddeeff056b65794d6174657269616c00a000000000f0f1"
    "f2f3f4f5f6f7f8f9fafbfcfdfeffeb1bd95e4c87a60ed850b557902d552888766b66bd4a29ac2ead27743c083d9a509a9bca"
    "3c62f8e5690222e22798ca9d53ed7c43a2d1f0d0011920afbf58376ead8ae8140d7708ccc21723f8a15d7b160e1430514516"
    "9a086a902a2b8ed8ebed17a41d039f916e318682917a5ab9dc7c0cda9a226ea11c80be73eb8bebbc768b35556f24c2adf2f8"
    "b730b716424411cd096372656174696f6e44617465000068e5cf8b0100000975706461746544617465000068e5cf8b010000"
    "107374617475730000000000036d61737465724b657900190000000270726f766964657200060000006c6f63616c000000";

static const uint8_t key_id[16] = {0x00, 0x11, 0x22, 0x33, 0x44, 0x55, 0x46, 0x77,
                                   0x88, 0x99, 0xaa, 0xbb, 0xcc, 0xdd, 0xee, 0xff};

static uint8_t key_bytes[sizeof key_document / 2];

static void unless(bool ok)
{
    if (!ok) exit(1);
}

static mongocrypt_t *library(void)
{
    uint8_t master[96];
    for (int i = 0; i < 96; i++) master[i] = i;
    for (size_t i = 0; i < sizeof key_bytes; i++) {
        unless(sscanf(key_document + 2 * i, "%2hhx", key_bytes + i) == 1);
    }
    mongocrypt_t *crypt = mongocrypt_new();
    mongocrypt_binary_t *bin = mongocrypt_binary_new_from_data(master, sizeof master);
    unless(mongocrypt_setopt_kms_provider_local(crypt, bin) && mongocrypt_init(crypt));
    mongocrypt_binary_destroy(bin);
    return crypt;
}

/* Feeds the key where it is asked for, and writes the document that comes out into out. */
static void finish(mongocrypt_ctx_t *ctx, bson_t *out)
{
    if (mongocrypt_ctx_state(ctx) == MONGOCRYPT_CTX_NEED_MONGO_KEYS) {
        mongocrypt_binary_t *bin = mongocrypt_binary_new_from_data(key_bytes, sizeof key_bytes);
        unless(mongocrypt_ctx_mongo_feed(ctx, bin) && mongocrypt_ctx_mongo_done(ctx));
        mongocrypt_binary_destroy(bin);
    }
    mongocrypt_binary_t *result = mongocrypt_binary_new();
    unless(mongocrypt_ctx_state(ctx) == MONGOCRYPT_CTX_READY && mongocrypt_ctx_finalize(ctx, result));
    bson_t document;
    unless(bson_init_static(&document, mongocrypt_binary_data(result), mongocrypt_binary_len(result)));
    bson_destroy(out);
    bson_copy_to(&document, out);
    mongocrypt_binary_destroy(result);
}

static void seal(mongocrypt_t *crypt, const char *algorithm, bson_t *in, bson_t *out)
{
    mongocrypt_ctx_t *ctx = mongocrypt_ctx_new(crypt);
    mongocrypt_binary_t *id = mongocrypt_binary_new_from_data((uint8_t *) key_id, sizeof key_id);
    mongocrypt_binary_t *bin = mongocrypt_binary_new_from_data((uint8_t *) bson_get_data(in), in->len);
    unless(mongocrypt_ctx_setopt_key_id(ctx, id) && mongocrypt_ctx_setopt_algorithm(ctx, algorithm, -1));
    unless(mongocrypt_ctx_explicit_encrypt_init(ctx, bin));
    finish(ctx, out);
    mongocrypt_binary_destroy(bin);
    mongocrypt_binary_destroy(id);
    mongocrypt_ctx_destroy(ctx);
}

static void open_sealed(mongocrypt_t *crypt, bson_t *in, bson_t *out)
{
    mongocrypt_ctx_t *ctx = mongocrypt_ctx_new(crypt);
    mongocrypt_binary_t *bin = mongocrypt_binary_new_from_data((uint8_t *) bson_get_data(in), in->len);
    unless(mongocrypt_ctx_explicit_decrypt_init(ctx, bin));
    finish(ctx, out);
    mongocrypt_binary_destroy(bin);
    mongocrypt_ctx_destroy(ctx);
}

/* The length of a payload, or of a binary of subtype 00. */
static void print_length(bson_t *document, bool payload)
{
    bson_iter_t it;
    bson_subtype_t subtype;
    uint32_t n;
    const uint8_t *contents;
    unless(bson_iter_init_find(&it, document, "v"));
    bson_iter_binary(&it, &subtype, &n, &contents);
    printf("%u\n", payload ? n : n + 5);
}

int main(int argc, char **argv)
{
    if (argc != 5) return 2;
    bool random = !strcmp(argv[2], "random");
    const char *algorithm = random ? MONGOCRYPT_ALGORITHM_RANDOM_STR : MONGOCRYPT_ALGORITHM_DETERMINISTIC_STR;
    size_t n = atol(argv[3]);
    uint8_t *contents = malloc(n + 1);
    for (size_t i = 0; i < n; i++) contents[i] = i % 251;
    bson_t plain = BSON_INITIALIZER, sealed = BSON_INITIALIZER, opened = BSON_INITIALIZER;
    BSON_APPEND_BINARY(&plain, "v", BSON_SUBTYPE_BINARY, contents, n);
    mongocrypt_t *crypt = library();
    bool opens = !strcmp(argv[1], "open");
    seal(crypt, algorithm, &plain, &sealed);
    for (long turn = atol(argv[4]); turn > 0; turn--) {
        if (opens) open_sealed(crypt, &sealed, &opened);
        else seal(crypt, algorithm, &plain, &sealed);
    }
    if (opens && atol(argv[4]) > 0) print_length(&opened, false);
    else print_length(&sealed, true);
    mongocrypt_destroy(crypt);
    return 0;
}
