/* settings: options of handles and contexts, values sealed by themselves, and keys that are made. It says what isn't
 * so. */
#include "fixture.h"

/* A value sealed by itself, under a key by id or by name. */
static mongocrypt_ctx_t *sealing_value(mongocrypt_t *crypt, const uint8_t *id, const char *name,
                                       const char *algorithm) {
    mongocrypt_ctx_t *ctx = mongocrypt_ctx_new(crypt);
    bson_t *value = BCON_NEW("v", SECRET);
    bool is = true;
    if (name) WITH_NEW(is, BCON_NEW("keyAltName", BCON_UTF8(name)), mongocrypt_ctx_setopt_key_alt_name(ctx, handed));
    mongocrypt_binary_t *of_id = mongocrypt_binary_new_from_data((uint8_t *)id, 16);
    if (id) is = mongocrypt_ctx_setopt_key_id(ctx, of_id);
    want(is && mongocrypt_ctx_setopt_algorithm(ctx, algorithm, -1), "options of a value");
    WITH_NEW(is, value, mongocrypt_ctx_explicit_encrypt_init(ctx, handed));
    want(is, "a value's beginning");
    mongocrypt_binary_destroy(of_id);
    return ctx;
}

static void values(void) {
    mongocrypt_t *crypt = handle_of(1, NULL);
    static const char *const algorithm = MONGOCRYPT_ALGORITHM_DETERMINISTIC_STR;
    bson_t *first = ended(sealing_value(crypt, ids[0], NULL, algorithm), &(server){.keys = {keys[0]}}, said);
    bson_t *second = ended(sealing_value(crypt, NULL, "first", algorithm), &both, said);
    bson_t *random = ended(sealing_value(crypt, ids[0], NULL, MONGOCRYPT_ALGORITHM_RANDOM_STR), &both, said);
    want(first && second && random && bson_equal(first, second) && !bson_equal(first, random) && !shows(first),
         "payloads");
    mongocrypt_ctx_t *ctx = mongocrypt_ctx_new(crypt);
    bool is;
    WITH(is, random, mongocrypt_ctx_explicit_decrypt_init(ctx, handed));
    bson_t *opened = ended(ctx, &both, said), *value = BCON_NEW("v", SECRET);
    want(is && opened && bson_equal(opened, value), "a value opened");
    want_refusal(sealing_value(crypt, NULL, "none", algorithm), &both, "KeyMissing", "");
    ctx = mongocrypt_ctx_new(crypt);
    for (int i = 0; i < 2; i++)
        WITH_NEW(is, BCON_NEW("keyAltName", i ? "first" : "second"), mongocrypt_ctx_setopt_key_alt_name(ctx, handed));
    want(mongocrypt_ctx_setopt_algorithm(ctx, algorithm, -1), "an algorithm");
    WITH(is, value, mongocrypt_ctx_explicit_encrypt_init(ctx, handed));
    want(!is, "a value under two names is refused");
    mongocrypt_ctx_destroy(ctx);
    ((uint8_t *)bson_get_data(random))[40] ^= 1;
    want_refusal(opening(crypt, random), &both, "TagMismatch", ", at v");
    bson_destroy(first), bson_destroy(second), bson_destroy(random), bson_destroy(opened), bson_destroy(value);
    mongocrypt_destroy(crypt);
}

/* A value's payload under a key document, by a handle that keeps no other. */
static bson_t *payload_under(const bson_t *key, const uint8_t *id) {
    mongocrypt_t *crypt = handle_of(1, NULL);
    mongocrypt_ctx_t *ctx = sealing_value(crypt, id, NULL, MONGOCRYPT_ALGORITHM_DETERMINISTIC_STR);
    bson_t *payload = ended(ctx, &(server){.keys = {key}}, said);
    want(payload != NULL, "a payload");
    mongocrypt_destroy(crypt);
    return payload;
}

/* Two keys of the same material of their own: under one id they seal to the same bytes. A third one's aren't. */
static void own_material(void) {
    mongocrypt_t *crypt = handle_of(1, NULL);
    uint8_t id[16], other[16], material[96];
    memset(material, 7, sizeof material);
    bson_t *own = new_key(crypt, "own", material, id), *again = new_key(crypt, "own", material, other);
    bson_t *moved[2] = {bson_new(), bson_new()}, *all[3];
    bson_copy_to_excluding_noinit(again, moved[0], "_id", NULL);
    bson_copy_to_excluding_noinit(keys[0], moved[1], "_id", NULL);
    for (int i = 0; i < 2; i++) BSON_APPEND_BINARY(moved[i], "_id", BSON_SUBTYPE_UUID, id, 16);
    for (int i = 0; i < 3; i++) all[i] = payload_under(i ? moved[i - 1] : own, id);
    want(bson_equal(all[0], all[1]) && !bson_equal(all[0], all[2]), "material of its own is the key's");
    bson_destroy(own), bson_destroy(again), bson_destroy(moved[0]), bson_destroy(moved[1]);
    bson_destroy(all[0]), bson_destroy(all[1]), bson_destroy(all[2]), mongocrypt_destroy(crypt);
}

/* Keys: names that fle refuses, wrong material, and rewrapping, by the master key that is there. */
static void new_keys(void) {
    mongocrypt_t *crypt = handle_of(1, map);
    uint8_t id[16], material[96];
    memset(material, 7, sizeof material);
    bson_t *own = new_key(crypt, "own", material, id), *again = new_key(crypt, "own", material, id),
           *filter = bson_new();
    mongocrypt_ctx_t *ctx = mongocrypt_ctx_new(crypt);
    bool is;
    WITH(is, filter, mongocrypt_ctx_rewrap_many_datakey_init(ctx, handed));
    want(is && mongocrypt_ctx_state(ctx) == KEYS, "keys to be rewrapped are asked for");
    bson_t *rewrapped = ended(ctx, &(server){.keys = {own, again}}, said);
    bson_iter_t at, all;
    want(rewrapped && bson_iter_init(&at, rewrapped) && bson_iter_find_descendant(&at, "v.1.keyMaterial", &all),
         "two keys");
    ctx = mongocrypt_ctx_new(crypt);
    WITH(is, filter, mongocrypt_ctx_rewrap_many_datakey_init(ctx, handed));
    want(mongocrypt_ctx_mongo_done(ctx) && mongocrypt_ctx_state(ctx) == MONGOCRYPT_CTX_DONE, "none to be rewrapped");
    mongocrypt_ctx_destroy(ctx), ctx = mongocrypt_ctx_new(crypt);
    bson_t *foreign = bson_new();
    bson_copy_to_excluding_noinit(own, foreign, "masterKey", NULL);
    BCON_APPEND(foreign, "masterKey", "{", "provider", "aws", "region", "x", "key", "y", "}");
    WITH(is, filter, mongocrypt_ctx_rewrap_many_datakey_init(ctx, handed));
    want_refusal(ctx, &(server){.keys = {own, foreign}}, "local alone", "");
    bson_destroy(foreign), ctx = mongocrypt_ctx_new(crypt);
    for (int i = 0; i < 2; i++)
        WITH_NEW(is, BCON_NEW("keyAltName", "a"), mongocrypt_ctx_setopt_key_alt_name(ctx, handed));
    want(mongocrypt_ctx_setopt_masterkey_local(ctx) && mongocrypt_ctx_datakey_init(ctx), "a name twice is told late");
    want_refusal(ctx, &nothing, "stands once", "names");
    ctx = mongocrypt_ctx_new(crypt);
    WITH_NEW(is, BCON_NEW("keyMaterial", "x"), mongocrypt_ctx_setopt_key_material(ctx, handed));
    want(!is && !mongocrypt_ctx_setopt_masterkey_local(ctx) && !mongocrypt_ctx_datakey_init(ctx),
         "wrong material sticks");
    want_refusal(ctx, &nothing, "length 96", "keyMaterial");
    bson_destroy(own), bson_destroy(again), bson_destroy(filter), bson_destroy(rewrapped), mongocrypt_destroy(crypt);
}

/* What a handle refuses is said, and sticks. */
static void want_no_handle(mongocrypt_t *crypt, bool set, const char *part) {
    mongocrypt_status_t *status = mongocrypt_status_new();
    want(!set && !mongocrypt_init(crypt) && !mongocrypt_status(crypt, status), "a handle that is refused");
    want(strstr(mongocrypt_status_message(status, NULL), part) != NULL, part);
    mongocrypt_status_destroy(status), mongocrypt_destroy(crypt);
}

/* A handle with a schema map that isn't taken at its init. */
static void want_no_map(const bson_t *bad, const char *part) {
    bool is;
    mongocrypt_t *crypt = mongocrypt_new();
    bson_t *providers = BCON_NEW("local", "{", "key", BCON_BIN(BSON_SUBTYPE_BINARY, (uint8_t[96]){0}, 96), "}");
    WITH_NEW(is, providers, mongocrypt_setopt_kms_providers(crypt, handed));
    WITH(is, bad, is && mongocrypt_setopt_schema_map(crypt, handed));
    want_no_handle(crypt, is && mongocrypt_init(crypt), part);
}

/* Of a schema map: a wrong schema, none, two of a collection, and bytes that are none behind the first. */
static void maps(void) {
    bson_t *bad[] = {
        BCON_NEW("hr.people", "{", "properties", "{", "a", "{", "encrypt", "{", "algorithm", "x", "}", "}", "}", "}"),
        BCON_NEW("hr.people", BCON_INT32(1)), BCON_NEW("people", "{", "}"),
        BCON_NEW("hr.people", BCON_DOCUMENT(schema), "hr.people", "{", "}"),
        BCON_NEW("hr.people", BCON_DOCUMENT(schema), "hr.other", BCON_INT32(1))};
    ((uint8_t *)bson_get_data(bad[4]))[bad[4]->len - 15] = 0x33;
    const char *parts[] = {"hr.people", "hr.people", "of people", "hr.people", "invalid schema map"};
    for (int i = 0; i < 5; i++) want_no_map(bad[i], parts[i]), bson_destroy(bad[i]);
}

static void options(void) {
    bool is;
    mongocrypt_t *crypt = mongocrypt_new();
    WITH_NEW(is, BCON_NEW("aws", "{", "}"), mongocrypt_setopt_kms_providers(crypt, handed));
    want_no_handle(crypt, is, "aws");
    crypt = mongocrypt_new();
    WITH_NEW(is, BCON_NEW("local", "{", "}"), mongocrypt_setopt_kms_providers(crypt, handed));
    want_no_handle(crypt, is, "on demand");
    crypt = mongocrypt_new();
    WITH_NEW(is, BCON_NEW("local", "{", "key", "c2hvcnQ=", "}"), mongocrypt_setopt_kms_providers(crypt, handed));
    want_no_handle(crypt, is && mongocrypt_init(crypt), "the local key");
    crypt = mongocrypt_new();
    WITH(is, map, mongocrypt_setopt_encrypted_field_config_map(crypt, handed));
    want_no_handle(crypt, is, "Queryable Encryption");
    crypt = mongocrypt_new();
    want_no_handle(crypt, mongocrypt_setopt_crypto_hooks(crypt, NULL, NULL, NULL, NULL, NULL, NULL, NULL), "hooks");
    want_no_handle(mongocrypt_new(), false, "no kms provider");
    crypt = handle_of(1, NULL);
    uint32_t size;
    const char *version = mongocrypt_crypt_shared_lib_version_string(crypt, &size);
    want(version && !strncmp(version, "fle ", 4) && size == strlen(version), "a version in crypt_shared's place");
    want(!mongocrypt_setopt_schema_map(crypt, NULL), "no option behind init");
    mongocrypt_destroy(crypt);
    crypt = handle_of(1, map);
    mongocrypt_ctx_t *ctx = mongocrypt_ctx_new(crypt);
    WITH_NEW(is, BCON_NEW("provider", "local", "extra", "x"), mongocrypt_ctx_setopt_key_encryption_key(ctx, handed));
    want(!is && strstr(message_of(ctx), "extra"), "a field of masterKey too many is refused");
    mongocrypt_ctx_destroy(ctx), mongocrypt_destroy(crypt);
}

int main(void) {
    begin_all();
    values(), new_keys(), own_material(), maps(), options();
    return end_all();
}
