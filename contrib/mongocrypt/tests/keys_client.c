/* keys_client HOST:PORT: libmongoc's explicit encryption and its pool: keys with names and with material of their own,
 * values sealed by them, keys rewrapped, and 8 threads of a pool. Each protected value shows SEKRET. */
#define _GNU_SOURCE
#include <mongoc/mongoc.h>
#include <pthread.h>
#include <stdio.h>
#include <stdlib.h>
#include <string.h>

#define DETERMINISTIC MONGOC_AEAD_AES_256_CBC_HMAC_SHA_512_DETERMINISTIC
#define RANDOM MONGOC_AEAD_AES_256_CBC_HMAC_SHA_512_RANDOM

static bson_error_t error;
static uint8_t master[96];
static mongoc_client_pool_t *pool;

static void want(bool is, const char *what) {
    if (is) return;
    printf("%s isn't so: %s\n", what, error.message);
    exit(1);
}

/* A refusal that names this, and no value. */
static void refused(bool is, const char *part) {
    want(is && strstr(error.message, part) && !strstr(error.message, "SEKRET"), part);
}

static mongoc_client_encryption_t *encryption_over(mongoc_client_t *vault, const bson_t *providers) {
    mongoc_client_encryption_opts_t *options = mongoc_client_encryption_opts_new();
    mongoc_client_encryption_opts_set_kms_providers(options, providers);
    mongoc_client_encryption_opts_set_keyvault_namespace(options, "encryption", "__keyVault");
    mongoc_client_encryption_opts_set_keyvault_client(options, vault);
    mongoc_client_encryption_t *made = mongoc_client_encryption_new(options, &error);
    mongoc_client_encryption_opts_destroy(options);
    return made;
}

static void make_key(mongoc_client_encryption_t *encryption, char *name, const uint8_t *material, bson_value_t *id) {
    mongoc_client_encryption_datakey_opts_t *options = mongoc_client_encryption_datakey_opts_new();
    if (name) mongoc_client_encryption_datakey_opts_set_keyaltnames(options, &name, 1);
    if (material) mongoc_client_encryption_datakey_opts_set_keymaterial(options, material, 96);
    want(mongoc_client_encryption_create_datakey(encryption, "local", options, id, &error), "a key");
    refused(!mongoc_client_encryption_create_datakey(encryption, "aws", options, NULL, &error), "aws");
    mongoc_client_encryption_datakey_opts_destroy(options);
}

static void seal(mongoc_client_encryption_t *encryption, const bson_value_t *id, const char *name,
                 const char *algorithm, bson_value_t *out) {
    bson_value_t value = {.value_type = BSON_TYPE_UTF8};
    value.value.v_utf8.str = (char *)"SEKRET", value.value.v_utf8.len = 6;
    mongoc_client_encryption_encrypt_opts_t *options = mongoc_client_encryption_encrypt_opts_new();
    if (id)
        mongoc_client_encryption_encrypt_opts_set_keyid(options, id);
    else
        mongoc_client_encryption_encrypt_opts_set_keyaltname(options, name);
    mongoc_client_encryption_encrypt_opts_set_algorithm(options, algorithm);
    want(mongoc_client_encryption_encrypt(encryption, &value, options, out, &error), algorithm);
    mongoc_client_encryption_encrypt_opts_destroy(options);
}

static bool equal(const bson_value_t *first, const bson_value_t *second) {
    uint32_t size = first->value.v_binary.data_len;
    return size == second->value.v_binary.data_len &&
           !memcmp(first->value.v_binary.data, second->value.v_binary.data, size);
}

static void values(mongoc_client_encryption_t *encryption, const bson_value_t *id) {
    bson_value_t by_id, by_name, random, opened;
    seal(encryption, id, NULL, DETERMINISTIC, &by_id), seal(encryption, NULL, "first", DETERMINISTIC, &by_name);
    seal(encryption, id, NULL, RANDOM, &random);
    want(equal(&by_id, &by_name) && !equal(&by_id, &random),
         "payloads equal by id and name, and by no other algorithm");
    want(mongoc_client_encryption_decrypt(encryption, &random, &opened, &error), "a value opened");
    want(opened.value_type == BSON_TYPE_UTF8 && !strcmp(opened.value.v_utf8.str, "SEKRET"), "the same value");
    bson_value_destroy(&opened);
    random.value.v_binary.data[40] ^= 1;
    refused(!mongoc_client_encryption_decrypt(encryption, &random, &opened, &error), "TagMismatch");
    bson_value_destroy(&by_id), bson_value_destroy(&by_name), bson_value_destroy(&random);
}

static void enable_pool(const bson_t *providers, const bson_t *map) {
    mongoc_auto_encryption_opts_t *options = mongoc_auto_encryption_opts_new();
    bson_t *extra = BCON_NEW("mongocryptdBypassSpawn", BCON_BOOL(true));
    mongoc_auto_encryption_opts_set_keyvault_namespace(options, "encryption", "__keyVault");
    mongoc_auto_encryption_opts_set_kms_providers(options, providers);
    mongoc_auto_encryption_opts_set_schema_map(options, map);
    mongoc_auto_encryption_opts_set_extra(options, extra);
    want(mongoc_client_pool_enable_auto_encryption(pool, options, &error), "a pool with encryption");
    mongoc_auto_encryption_opts_destroy(options), bson_destroy(extra);
}

static void *threaded(void *number) {
    bson_error_t refusal;
    for (int i = 0; i < 25; i++) {
        mongoc_client_t *client = mongoc_client_pool_pop(pool);
        mongoc_collection_t *people = mongoc_client_get_collection(client, "hr", "people");
        bson_t *document = BCON_NEW("_id", BCON_INT32(*(int *)number * 100 + i), "ssn", "SEKRET"), *filter = bson_new();
        bson_append_int32(filter, "_id", -1, *(int *)number * 100 + i),
            bson_append_utf8(filter, "ssn", -1, "SEKRET", -1);
        bool is = mongoc_collection_insert_one(people, document, NULL, NULL, &refusal);
        mongoc_cursor_t *cursor = mongoc_collection_find_with_opts(people, filter, NULL, NULL);
        const bson_t *found = NULL;
        is = is && mongoc_cursor_next(cursor, &found) && bson_equal(found, document);
        mongoc_cursor_destroy(cursor), mongoc_collection_destroy(people), bson_destroy(document), bson_destroy(filter);
        mongoc_client_pool_push(pool, client);
        if (!is) return number;
    }
    return NULL;
}

static void threads(const char *text, const bson_t *providers, const bson_value_t *id) {
    mongoc_uri_t *uri = mongoc_uri_new(text);
    pool = mongoc_client_pool_new(uri);
    mongoc_client_pool_set_error_api(pool, 2);
    bson_t *map = BCON_NEW("hr.people", "{", "bsonType", "object", "properties", "{", "ssn", "{", "encrypt", "{",
                           "keyId", "[", BCON_BIN(BSON_SUBTYPE_UUID, id->value.v_binary.data, 16), "]", "bsonType",
                           "string", "algorithm", DETERMINISTIC, "}", "}", "}", "}");
    enable_pool(providers, map);
    pthread_t all[8];
    int numbers[8];
    void *bad;
    for (int i = 0; i < 8; i++) numbers[i] = i, want(!pthread_create(&all[i], NULL, threaded, &numbers[i]), "a thread");
    for (int i = 0; i < 8; i++) want(!pthread_join(all[i], &bad) && !bad, "what a thread wrote and read");
    bson_destroy(map), mongoc_client_pool_destroy(pool), mongoc_uri_destroy(uri);
}

static void no_queryable(const char *uri, const bson_t *providers) {
    mongoc_client_t *client = mongoc_client_new(uri);
    mongoc_auto_encryption_opts_t *options = mongoc_auto_encryption_opts_new();
    bson_t *map = BCON_NEW("hr.x", "{", "fields", "[", "]", "}");
    mongoc_auto_encryption_opts_set_keyvault_namespace(options, "encryption", "__keyVault");
    mongoc_auto_encryption_opts_set_kms_providers(options, providers);
    mongoc_auto_encryption_opts_set_encrypted_fields_map(options, map);
    refused(!mongoc_client_enable_auto_encryption(client, options, &error), "Queryable Encryption");
    mongoc_auto_encryption_opts_destroy(options), bson_destroy(map), mongoc_client_destroy(client);
}

int main(int words, char **word) {
    char uri[200];
    want(words == 2, "one word");
    snprintf(uri, sizeof uri, "mongodb://%s/", word[1]);
    for (int i = 0; i < 96; i++) master[i] = (uint8_t)i;
    mongoc_init();
    mongoc_client_t *vault = mongoc_client_new(uri);
    mongoc_client_set_error_api(vault, 2);
    bson_t *providers = BCON_NEW("local", "{", "key", BCON_BIN(BSON_SUBTYPE_BINARY, master, 96), "}");
    mongoc_client_encryption_t *encryption = encryption_over(vault, providers);
    want(encryption != NULL, "explicit encryption");
    bson_value_t first, second;
    make_key(encryption, (char *)"first", NULL, &first), make_key(encryption, NULL, master, &second);
    values(encryption, &first);
    mongoc_client_encryption_rewrap_many_datakey_result_t *result =
        mongoc_client_encryption_rewrap_many_datakey_result_new();
    want(mongoc_client_encryption_rewrap_many_datakey(encryption, NULL, "local", NULL, result, &error),
         "keys rewrapped");
    mongoc_client_encryption_rewrap_many_datakey_result_destroy(result);
    mongoc_client_encryption_destroy(encryption), encryption = encryption_over(vault, providers);
    values(encryption, &first);
    threads(uri, providers, &first);
    no_queryable(uri, providers);
    bson_t *aws = BCON_NEW("aws", "{", "accessKeyId", "a", "secretAccessKey", "SEKRET", "}");
    mongoc_client_encryption_t *none = encryption_over(vault, aws);
    refused(!none, "aws");
    bson_value_destroy(&first), bson_value_destroy(&second), bson_destroy(providers), bson_destroy(aws);
    mongoc_client_encryption_destroy(encryption), mongoc_client_destroy(vault);
    mongoc_cleanup();
    return 0;
}
