/* cross write|read FILE: values of each type sealed by themselves, by whichever libmongocrypt the loader finds, which
 * another one reads: `write` makes a key and payloads, `read` opens them, and seals those of the deterministic
 * algorithm to the same bytes. It says how many there were. */
#include "harness.h"

static mongocrypt_t *handle;

/* One value under a key by its id or its name. */
static bson_t *sealed_value(const bson_t *value, const bson_t *key, const uint8_t *id, bool by_name, bool random) {
    mongocrypt_ctx_t *ctx = mongocrypt_ctx_new(handle);
    mongocrypt_binary_t *of_id = mongocrypt_binary_new_from_data((uint8_t *)id, 16);
    bool is;
    if (by_name)
        WITH_NEW(is, BCON_NEW("keyAltName", "cross"), mongocrypt_ctx_setopt_key_alt_name(ctx, handed));
    else
        is = mongocrypt_ctx_setopt_key_id(ctx, of_id);
    const char *algorithm = random ? MONGOCRYPT_ALGORITHM_RANDOM_STR : MONGOCRYPT_ALGORITHM_DETERMINISTIC_STR;
    want(is && mongocrypt_ctx_setopt_algorithm(ctx, algorithm, -1), "options");
    WITH(is, value, mongocrypt_ctx_explicit_encrypt_init(ctx, handed));
    bson_t *payload = is ? ended(ctx, &(server){.keys = {key}}, NULL) : NULL;
    mongocrypt_binary_destroy(of_id);
    return payload;
}

/* The values: the first `count` may be sealed deterministically. */
static bson_t **all_values(int *count, int *all) {
    static bson_t *values[16];
    bson_oid_t oid;
    bson_decimal128_t decimal;
    bson_oid_init_from_string(&oid, "0123456789abcdef01234567");
    bson_decimal128_from_string("1.5", &decimal);
    bson_t *some[] = {
        BCON_NEW("v", "123-45-6789"),
        BCON_NEW("v", ""),
        BCON_NEW("v", BCON_INT32(7)),
        BCON_NEW("v", BCON_INT64(1LL << 40)),
        BCON_NEW("v", BCON_OID(&oid)),
        BCON_NEW("v", BCON_DATE_TIME(99)),
        BCON_NEW("v", BCON_BIN(BSON_SUBTYPE_BINARY, (const uint8_t *)"0123456789012345678901234567890123", 34)),
        BCON_NEW("v", BCON_TIMESTAMP(1, 2)),
        BCON_NEW("v", BCON_SYMBOL("s")),
        BCON_NEW("v", BCON_DOUBLE(1.5)),
        BCON_NEW("v", BCON_BOOL(true)),
        BCON_NEW("v", BCON_DECIMAL128(&decimal)),
        BCON_NEW("v", "{", "a", "[", BCON_INT32(1), "b", "]", "}"),
        BCON_NEW("v", "[", "x", "{", "}", "]")};
    memcpy(values, some, sizeof some);
    *count = 9, *all = sizeof some / sizeof *some;
    return values;
}

static void put(FILE *file, const bson_t *document) {
    want(fwrite(bson_get_data(document), 1, document->len, file) == document->len, "a document written");
}

static bson_t *get(FILE *file) {
    uint8_t at[4096];
    uint32_t size;
    want(fread(at, 1, 4, file) == 4, "a document read");
    memcpy(&size, at, 4);
    want(size <= sizeof at && fread(at + 4, 1, size - 4, file) == size - 4, "a document read");
    return bson_new_from_data(at, size);
}

int main(int words, char **word) {
    int deterministic, all, count = 0;
    uint8_t id[16];
    want(words == 3, "two words");
    bool writes = !strcmp(word[1], "write");
    FILE *file = fopen(word[2], writes ? "wb" : "rb");
    want(file != NULL, "a file");
    handle = handle_of(1, NULL);
    bson_t **values = all_values(&deterministic, &all), *key = writes ? new_key(handle, "cross", NULL, id) : get(file);
    bson_iter_t at;
    const uint8_t *found;
    want(bson_iter_init_find(&at, key, "_id"), "an id");
    bson_iter_binary(&at, NULL, &(uint32_t){0}, &found);
    memcpy(id, found, 16);
    if (writes) put(file, key);
    for (int turn = 0; turn < 4; turn++)
        for (int i = 0; i < (turn < 2 ? deterministic : all); i++, count++) {
            bson_t *mine = sealed_value(values[i], key, id, turn % 2, turn >= 2);
            want(mine != NULL, "a value sealed");
            bson_t *theirs = writes ? bson_copy(mine) : get(file),
                   *opened = ended(opening(handle, theirs), &(server){.keys = {key}}, NULL);
            want(opened && bson_equal(opened, values[i]), "a value opened");
            want(bson_equal(mine, theirs) == (writes || turn < 2),
                 "equal payloads, of the deterministic algorithm alone");
            if (writes) put(file, mine);
            bson_destroy(mine), bson_destroy(theirs), bson_destroy(opened);
        }
    for (int i = 0; i < all; i++) bson_destroy(values[i]);
    bson_destroy(key), mongocrypt_destroy(handle);
    want(fclose(file) == 0, "a file that is closed");
    printf("%s: %d values\n", word[1], count);
    return 0;
}
