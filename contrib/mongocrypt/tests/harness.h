/* harness.h: what the tests in C share: handles, contexts that are driven to their end, a clock that they set. They
 * call mongocrypt.h alone, of whichever libmongocrypt.so.0 the loader finds. */
#ifndef HARNESS_H
#define HARNESS_H
#define _GNU_SOURCE
#include <bson/bson.h>
#include <mongocrypt.h>
#include <pthread.h>
#include <stdio.h>
#include <stdlib.h>
#include <string.h>
#include <sys/syscall.h>
#include <sys/wait.h>
#include <time.h>
#include <unistd.h>

#define SECRET "SEKRET"

#define INFO MONGOCRYPT_CTX_NEED_MONGO_COLLINFO
#define KEYS MONGOCRYPT_CTX_NEED_MONGO_KEYS

/* Documents that a driver hands in, as it is asked for them. */
typedef struct {
    const bson_t *info, *keys[4];
} server;

static void want(bool is, const char *what) {
    if (is) return;
    printf("%s isn't so\n", what);
    exit(1);
}

static mongocrypt_binary_t *binary(const bson_t *document) {
    return mongocrypt_binary_new_from_data((uint8_t *)bson_get_data(document), document->len);
}

/* A call that takes a document; of WITH_NEW it is freed behind it. */
#define WITH(is, document, call)                        \
    do {                                                \
        mongocrypt_binary_t *handed = binary(document); \
        is = call;                                      \
        mongocrypt_binary_destroy(handed);              \
    } while (0)
#define WITH_NEW(is, document, call) \
    do {                             \
        bson_t *given = document;    \
        WITH(is, given, call);       \
        bson_destroy(given);         \
    } while (0)

static mongocrypt_t *handle_of(uint8_t first, const bson_t *schema_map) {
    mongocrypt_t *crypt = mongocrypt_new();
    uint8_t master[96];
    bool is;
    for (int i = 0; i < 96; i++) master[i] = (uint8_t)(first + i);
    bson_t *providers = BCON_NEW("local", "{", "key", BCON_BIN(BSON_SUBTYPE_BINARY, master, 96), "}");
    WITH_NEW(is, providers, mongocrypt_setopt_kms_providers(crypt, handed));
    want(is, "a master key");
    if (schema_map) WITH(is, schema_map, mongocrypt_setopt_schema_map(crypt, handed));
    want(is && mongocrypt_init(crypt), "a handle");
    return crypt;
}

static const char *message_of(mongocrypt_ctx_t *ctx) {
    static __thread char said[1100];
    mongocrypt_status_t *status = mongocrypt_status_new();
    mongocrypt_ctx_status(ctx, status);
    const char *message = mongocrypt_status_message(status, NULL);
    snprintf(said, sizeof said, "%s", message ? message : "");
    mongocrypt_status_destroy(status);
    return said;
}

/* A context that seals a command. */
static inline mongocrypt_ctx_t *sealing(mongocrypt_t *crypt, const bson_t *command) {
    mongocrypt_ctx_t *ctx = mongocrypt_ctx_new(crypt);
    bool is;
    WITH(is, command, mongocrypt_ctx_encrypt_init(ctx, "hr", -1, handed));
    (void)is;
    return ctx;
}

static inline mongocrypt_ctx_t *opening(mongocrypt_t *crypt, const bson_t *document) {
    mongocrypt_ctx_t *ctx = mongocrypt_ctx_new(crypt);
    bool is;
    WITH(is, document, mongocrypt_ctx_decrypt_init(ctx, handed));
    (void)is;
    return ctx;
}

/* Answers one question of a context. */
static bool answer(mongocrypt_ctx_t *ctx, const server *from) {
    bool is = true;
    const bson_t *const info[4] = {from->info}, *const *all = mongocrypt_ctx_state(ctx) == INFO ? info : from->keys;
    for (int i = 0; is && i < 4 && all[i]; i++) WITH(is, all[i], mongocrypt_ctx_mongo_feed(ctx, handed));
    return is && mongocrypt_ctx_mongo_done(ctx);
}

/* What a context comes to, or NULL where it is refused; `said` has the message. The context is freed. */
static inline bson_t *ended(mongocrypt_ctx_t *ctx, const server *from, char *said) {
    bson_t *document = NULL;
    mongocrypt_binary_t *out = mongocrypt_binary_new();
    int turns = 0;
    while (mongocrypt_ctx_state(ctx) == INFO || mongocrypt_ctx_state(ctx) == KEYS) {
        want(turns++ < 6, "an end of questions");
        if (!answer(ctx, from)) break;
    }
    if (mongocrypt_ctx_state(ctx) == MONGOCRYPT_CTX_READY && mongocrypt_ctx_finalize(ctx, out)) {
        document = bson_new_from_data(mongocrypt_binary_data(out), mongocrypt_binary_len(out));
        want(document && mongocrypt_ctx_state(ctx) == MONGOCRYPT_CTX_DONE, "a document that was made");
    }
    if (said) strcpy(said, message_of(ctx));
    mongocrypt_binary_destroy(out);
    mongocrypt_ctx_destroy(ctx);
    return document;
}

/* Whether a document holds the word that stands in each protected value. */
static inline bool shows(const bson_t *document) {
    return memmem(bson_get_data(document), document->len, SECRET, strlen(SECRET)) != NULL;
}

/* The document of a new key, with names or without, and its id. */
static inline bson_t *new_key(mongocrypt_t *crypt, const char *name, const uint8_t *material, uint8_t id[16]) {
    mongocrypt_ctx_t *ctx = mongocrypt_ctx_new(crypt);
    bool is = true;
    WITH_NEW(is, BCON_NEW("provider", "local"), mongocrypt_ctx_setopt_key_encryption_key(ctx, handed));
    want(is, "a provider");
    bson_t *option = name ? BCON_NEW("keyAltName", BCON_UTF8(name)) : NULL;
    if (option) WITH_NEW(is, option, mongocrypt_ctx_setopt_key_alt_name(ctx, handed));
    option = material ? BCON_NEW("keyMaterial", BCON_BIN(BSON_SUBTYPE_BINARY, material, 96)) : NULL;
    if (option) WITH_NEW(is, option, mongocrypt_ctx_setopt_key_material(ctx, handed));
    want(is && mongocrypt_ctx_datakey_init(ctx), "a key");
    bson_t *key = ended(ctx, &(server){0}, NULL);
    bson_iter_t at;
    const uint8_t *found;
    uint32_t size;
    want(key && bson_iter_init_find(&at, key, "_id"), "an id");
    bson_iter_binary(&at, NULL, &size, &found);
    want(size == 16, "an id of 16 bytes");
    memcpy(id, found, 16);
    return key;
}

/* A schema: ssn is deterministic, pay random, both under one key; in.ssn is deterministic, under another. */
static inline bson_t *new_schema(const uint8_t *id, const uint8_t *other) {
    return BCON_NEW("bsonType", "object", "properties", "{", "ssn", "{", "encrypt", "{", "keyId", "[",
                    BCON_BIN(BSON_SUBTYPE_UUID, id, 16), "]", "bsonType", "string", "algorithm",
                    MONGOCRYPT_ALGORITHM_DETERMINISTIC_STR, "}", "}", "pay", "{", "encrypt", "{", "keyId", "[",
                    BCON_BIN(BSON_SUBTYPE_UUID, id, 16), "]", "algorithm", MONGOCRYPT_ALGORITHM_RANDOM_STR, "}", "}",
                    "in", "{", "bsonType", "object", "properties", "{", "ssn", "{", "encrypt", "{", "keyId", "[",
                    BCON_BIN(BSON_SUBTYPE_UUID, other, 16), "]", "bsonType", "string", "algorithm",
                    MONGOCRYPT_ALGORITHM_DETERMINISTIC_STR, "}", "}", "}", "}", "}");
}

static inline bson_t *info_of(const char *name, const bson_t *schema) {
    return BCON_NEW("name", BCON_UTF8(name), "type", "collection", "options", "{", "validator", "{", "$jsonSchema",
                    BCON_DOCUMENT(schema), "}", "}");
}

#endif
