/* many [COUNT [SEED]]: so many random contexts, of commands and bytes right and wrong, and calls in a wrong order; then
 * eight threads with as many turns and one handle, and a child that forked. No protected value may come out. It says
 * what isn't so. */
#include "harness.h"

static uint32_t seed;
static int turns; /* of each thread */
static uint8_t ids[2][16];
static bson_t *keys[2], *schema, *info, *map, *payload;

/* A number below another. */
static uint32_t chance(uint32_t below) { return (seed = seed * 1664525u + 1013904223u) / 65536u % below; }

/* A value of a protected field, or of one that isn't; a protected one shows the word. */
static void put_value(bson_t *to, const char *name, bool protected, int depth) {
    bson_t inner;
    switch (chance(protected ? 6 : 5)) {
        case 0:
            BSON_APPEND_INT32(to, name, (int32_t)chance(9));
            break;
        case 1:
            bson_append_array_begin(to, name, -1, &inner);
            for (uint32_t i = chance(3); depth < 3 && i--;) put_value(&inner, i ? "1" : "0", protected, depth + 1);
            bson_append_array_end(to, &inner);
            break;
        case 2:
            bson_append_document_begin(to, name, -1, &inner);
            if (depth < 3) put_value(&inner, chance(2) ? "$in" : "x", protected, depth + 1);
            bson_append_document_end(to, &inner);
            break;
        default:
            BSON_APPEND_UTF8(to, name, protected ? SECRET : "free");
    }
}

/* A document to be stored, the fields of an operator, or a filter; the first has names, the others ways. */
typedef enum { STORED, CHANGED, FILTER } form;

static void put_fields(bson_t *to, form form, int depth) {
    static const char *const names[] = {"ssn", "pay",   "in",       "name", "in.ssn",
                                        "x.y", "ssn.x", "in.0.ssn", "$or",  "$and"};
    static const uint32_t counts[] = {4, 8, 10};
    bson_t inner, item;
    for (uint32_t i = depth < 3 ? chance(4) : 0; i--;) {
        const char *name = names[chance(counts[form])];
        bool both = name[0] == '$', under = !strcmp(name, "in");
        if (both || (under && chance(2))) {
            bson_append_array_begin(to, name, -1, &inner), bson_append_document_begin(&inner, "0", -1, &item);
            if (both)
                put_fields(&item, form, depth + 1);
            else
                BSON_APPEND_UTF8(&item, "ssn", SECRET);
            bson_append_document_end(&inner, &item), bson_append_array_end(to, &inner);
        } else if (under) {
            bson_append_document_begin(to, name, -1, &inner);
            BSON_APPEND_UTF8(&inner, "ssn", SECRET);
            bson_append_document_end(to, &inner);
        } else {
            put_value(to, name, strstr(name, "ssn") || !strcmp(name, "pay"), 0);
        }
    }
}

static void put_document(bson_t *to, const char *name, bool filter) {
    static const char *const operators[] = {"$set", "$setOnInsert", "$push", "$inc"};
    bson_t inner, under;
    bson_append_document_begin(to, name, -1, &inner);
    if (!filter && !strcmp(name, "u") && chance(4)) {
        bson_append_document_begin(&inner, operators[chance(4) % (1 + chance(4))], -1, &under);
        put_fields(&under, CHANGED, 0);
        bson_append_document_end(&inner, &under);
    } else {
        put_fields(&inner, filter ? FILTER : STORED, 0);
    }
    bson_append_document_end(to, &inner);
}

/* A command of which each protected field holds the word, and no other field does. */
static bson_t *some_command(void) {
    static const char *const names[] = {"insert", "update", "delete", "find", "findAndModify", "aggregate", "count"};
    static const char *const lists[] = {"documents", "updates", "deletes"};
    uint32_t kind = chance(10) ? chance(4) : chance(7);
    bson_t *command = BCON_NEW(names[kind], "people"), list, item;
    if (kind < 3) {
        bson_append_array_begin(command, lists[kind], -1, &list);
        if (kind) bson_append_document_begin(&list, "0", -1, &item);
        if (!kind)
            put_document(&list, "0", false);
        else
            put_document(&item, "q", true);
        if (kind == 1) put_document(&item, "u", false);
        if (kind == 2) BSON_APPEND_INT32(&item, "limit", 1);
        if (kind) bson_append_document_end(&list, &item);
        bson_append_array_end(command, &list);
    } else {
        put_document(command, kind == 3 ? "filter" : "query", true);
    }
    if (chance(2)) BSON_APPEND_UTF8(command, "$db", "hr");
    return command;
}

/* Bytes with some changed, in a block of their own size. */
static mongocrypt_binary_t *changed(const bson_t *document, uint8_t **block) {
    uint32_t size = chance(8) ? document->len : chance(document->len + 1);
    uint8_t *at = *block = malloc(size ? size : 1);
    memcpy(at, bson_get_data(document), size);
    for (uint32_t i = chance(4); i-- && size;) at[chance(size)] = (uint8_t)chance(chance(3) ? 256 : 20);
    if (size >= 4 && chance(2)) memcpy(at, &size, 4);
    if (size && chance(2)) at[size - 1] = 0;
    return mongocrypt_binary_new_from_data(at, size);
}

/* One step of a context, right or wrong; false at the end. */
static bool step(mongocrypt_ctx_t *ctx, bool wild, mongocrypt_binary_t *out) {
    mongocrypt_ctx_state_t state = mongocrypt_ctx_state(ctx);
    const bson_t *all[] = {info, keys[0], keys[1], map};
    uint8_t *block = NULL;
    if (wild && !chance(20)) state = (mongocrypt_ctx_state_t)chance(8);
    if (state == MONGOCRYPT_CTX_READY) return mongocrypt_ctx_finalize(ctx, out), true;
    if (state != MONGOCRYPT_CTX_NEED_MONGO_COLLINFO && state != MONGOCRYPT_CTX_NEED_MONGO_KEYS) return false;
    mongocrypt_ctx_mongo_op(ctx, out);
    for (int i = state == MONGOCRYPT_CTX_NEED_MONGO_KEYS ? 1 : 0, end = i ? 3 : 1; i < end; i++) {
        const bson_t *fed = wild && !chance(10) ? all[chance(4)] : all[i];
        mongocrypt_binary_t *handed = wild && !chance(5) ? changed(fed, &block) : binary(fed);
        if (!wild || chance(10)) mongocrypt_ctx_mongo_feed(ctx, handed);
        mongocrypt_binary_destroy(handed), free(block), block = NULL;
    }
    mongocrypt_ctx_mongo_done(ctx);
    return true;
}

/* A context of bytes that are changed, and of another kind. */
static void wild_context(mongocrypt_t *crypt) {
    mongocrypt_ctx_t *ctx = mongocrypt_ctx_new(crypt);
    mongocrypt_binary_t *out = mongocrypt_binary_new(), *handed;
    uint32_t kind = chance(6);
    bson_t *command = kind == 1 ? some_command() : NULL, *value = BCON_NEW("v", SECRET),
           *name = BCON_NEW("keyAltName", "first");
    uint8_t *block = NULL;
    if (kind == 2 || kind == 5) handed = chance(4) ? binary(name) : changed(name, &block);
    if (kind == 2 || kind == 5)
        mongocrypt_ctx_setopt_key_alt_name(ctx, handed), mongocrypt_binary_destroy(handed), free(block);
    handed = changed(kind == 1 ? command : kind == 2 ? value : payload, &block);
    if (kind == 1) mongocrypt_ctx_encrypt_init(ctx, "hr", chance(2) ? -1 : 2, handed);
    if (kind == 2) mongocrypt_ctx_setopt_algorithm(ctx, MONGOCRYPT_ALGORITHM_RANDOM_STR, -1);
    if (kind == 2) mongocrypt_ctx_explicit_encrypt_init(ctx, handed);
    if (kind == 3) mongocrypt_ctx_explicit_decrypt_init(ctx, handed);
    if (kind == 4) mongocrypt_ctx_rewrap_many_datakey_init(ctx, handed);
    if (kind == 5) mongocrypt_ctx_setopt_masterkey_local(ctx), mongocrypt_ctx_datakey_init(ctx);
    if (kind == 0) mongocrypt_ctx_decrypt_init(ctx, handed);
    mongocrypt_binary_destroy(handed), free(block);
    for (int turn = 0; turn < 8 && step(ctx, true, out); turn++) {
    }
    message_of(ctx);
    mongocrypt_binary_destroy(out), mongocrypt_ctx_destroy(ctx);
    bson_destroy(value), bson_destroy(name);
    if (command) bson_destroy(command);
}

/* A right context: whatever comes out of it is sealed, and opens to the command. */
static bool right_context(mongocrypt_t *crypt) {
    server from = {info, {keys[0], keys[1]}};
    bson_t *command = some_command(), *sealed = ended(sealing(crypt, command), &from, NULL);
    bool is = sealed != NULL;
    if (is) {
        if (shows(sealed)) printf("%s\n", bson_as_canonical_extended_json(command, NULL));
        want(!shows(sealed), "a command without a protected value");
        bson_t *opened = ended(opening(crypt, sealed), &from, NULL);
        want(opened && bson_equal(opened, command), "the command opened");
        bson_destroy(opened), bson_destroy(sealed);
    }
    bson_destroy(command);
    return is;
}

static void random_contexts(int count) {
    int made = 0, right = 0;
    for (int i = 0; i < count;) {
        mongocrypt_t *crypt = handle_of(1, chance(2) ? map : NULL);
        for (int j = 0; j < 20; j++, i++) {
            if (chance(2))
                wild_context(crypt);
            else
                right++, made += right_context(crypt);
        }
        mongocrypt_destroy(crypt);
    }
    want(made * 5 >= right, "a fifth of the right contexts that seal");
    if (getenv("VERBOSE")) printf("%d contexts, %d of right commands, %d of them sealed\n", count, right, made);
}

/* Inserts and reads by one of many threads. */
static void *threaded(void *crypt) {
    server from = {info, {keys[0], keys[1]}};
    bson_t *command = BCON_NEW("insert", "people", "documents", "[", "{", "ssn", SECRET, "pay", SECRET, "}", "]");
    for (int i = 0; i < turns; i++) {
        bson_t *sealed = ended(sealing(crypt, command), &from, NULL);
        if (!sealed || shows(sealed)) return crypt;
        bson_t *opened = ended(opening(crypt, sealed), &from, NULL);
        if (!opened || !bson_equal(opened, command)) return crypt;
        bson_destroy(sealed), bson_destroy(opened);
    }
    bson_destroy(command);
    return NULL;
}

static void threads(void) {
    mongocrypt_t *crypt = handle_of(1, NULL);
    pthread_t all[8];
    void *bad;
    for (int i = 0; i < 8; i++) want(!pthread_create(&all[i], NULL, threaded, crypt), "a thread");
    for (int i = 0; i < 8; i++) want(!pthread_join(all[i], &bad) && !bad, "what a thread sealed and opened");
    mongocrypt_destroy(crypt);
}

/* A child seals by the engine of before, with random bytes of its own. */
static void fork_one(void) {
    mongocrypt_t *crypt = handle_of(1, map);
    server from = {.keys = {keys[0], keys[1]}};
    bson_t *command = BCON_NEW("insert", "people", "documents", "[", "{", "pay", SECRET, "}", "]");
    bson_destroy(ended(sealing(crypt, command), &from, NULL));
    int ends[2], status;
    want(!pipe(ends), "a pipe");
    pid_t child = fork();
    bson_t *sealed = ended(sealing(crypt, command), &from, NULL);
    if (!child) {
        bool is = sealed && write(ends[1], bson_get_data(sealed), sealed->len) == (ssize_t)sealed->len;
        bson_destroy(sealed), bson_destroy(command), mongocrypt_destroy(crypt);
        _exit(!is);
    }
    uint8_t other[1000];
    want(waitpid(child, &status, 0) == child && !status, "a child that seals");
    want(sealed && read(ends[0], other, sizeof other) == (ssize_t)sealed->len, "as many bytes");
    want(memcmp(other, bson_get_data(sealed), sealed->len) != 0, "other random bytes in the child");
    bson_destroy(command), bson_destroy(sealed), close(ends[0]), close(ends[1]), mongocrypt_destroy(crypt);
}

int main(int words, char **word) {
    seed = words > 2 ? (uint32_t)atoi(word[2]) : 1;
    mongocrypt_t *crypt = handle_of(1, NULL);
    keys[0] = new_key(crypt, "first", NULL, ids[0]), keys[1] = new_key(crypt, "second", NULL, ids[1]);
    schema = new_schema(ids[0], ids[1]), info = info_of("people", schema),
    map = BCON_NEW("hr.people", BCON_DOCUMENT(schema));
    bson_t *command = BCON_NEW("insert", "people", "documents", "[", "{", "ssn", SECRET, "pay", SECRET, "}", "]");
    payload = ended(sealing(crypt, command), &(server){info, {keys[0]}}, NULL);
    want(payload != NULL, "a payload");
    mongocrypt_destroy(crypt);
    turns = words > 1 ? atoi(word[1]) : 100;
    random_contexts(turns);
    threads();
    fork_one();
    bson_destroy(keys[0]), bson_destroy(keys[1]), bson_destroy(schema), bson_destroy(info), bson_destroy(map);
    bson_destroy(command), bson_destroy(payload);
    return 0;
}
