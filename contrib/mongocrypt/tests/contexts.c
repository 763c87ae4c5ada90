/* contexts: what contexts come to, one way at a time. It says what isn't so. */
#include "fixture.h"

static long later; /* seconds that the clock is ahead */

/* The clock of the library, in the place of the system's. */
int clock_gettime(clockid_t clock, struct timespec *time) {
    long failed = syscall(SYS_clock_gettime, clock, time);
    time->tv_sec += later;
    return (int)failed;
}

static mongocrypt_ctx_t *sealing_once(mongocrypt_t *crypt, bson_t *command) {
    mongocrypt_ctx_t *ctx = sealing(crypt, command);
    bson_destroy(command);
    return ctx;
}

/* A context with a state and no end. */
static void want_state(mongocrypt_t *crypt, const bson_t *command, int state, const char *what) {
    mongocrypt_ctx_t *ctx = sealing(crypt, command);
    want((int)mongocrypt_ctx_state(ctx) == state, what);
    mongocrypt_ctx_destroy(ctx);
}

/* Sealed, with no value to be seen, and opened again to the same. */
static void want_sealed(mongocrypt_t *crypt, const bson_t *command, const server *from) {
    bson_t *sealed = ended(sealing(crypt, command), from, said);
    if (!sealed) printf("said: %s\n", said);
    want(sealed && !shows(sealed), "a command sealed");
    bson_t *opened = ended(opening(crypt, sealed), from, said);
    want(opened && bson_equal(opened, command), "the same command opened");
    bson_destroy(sealed), bson_destroy(opened);
}

static void remote_rules(void) {
    mongocrypt_t *crypt = handle_of(1, NULL);
    mongocrypt_ctx_t *ctx = sealing(crypt, insert);
    mongocrypt_binary_t *op = mongocrypt_binary_new();
    want(mongocrypt_ctx_state(ctx) == INFO && mongocrypt_ctx_mongo_op(ctx, op), "a question for an info");
    bson_t asked;
    want(bson_init_static(&asked, mongocrypt_binary_data(op), mongocrypt_binary_len(op)), "a filter");
    bson_t *wanted = BCON_NEW("name", "people");
    want(bson_equal(&asked, wanted), "{name: people}");
    want(answer(ctx, &both) && mongocrypt_ctx_state(ctx) == KEYS, "a question for keys");
    bson_t *sealed = ended(ctx, &both, said);
    want(sealed && !shows(sealed), "a command sealed");
    want_state(crypt, insert, MONGOCRYPT_CTX_READY, "infos and keys are kept");
    later += 61;
    want_state(crypt, insert, INFO, "infos are kept for a minute");
    want_state(crypt, sealed, INFO, "keys are kept for a minute");
    ctx = opening(crypt, sealed);
    want(mongocrypt_ctx_state(ctx) == KEYS, "keys are asked for again, to open");
    bson_destroy(ended(ctx, &both, said));
    want_sealed(crypt, insert, &both);
    bson_destroy(sealed), bson_destroy(wanted), mongocrypt_binary_destroy(op), mongocrypt_destroy(crypt);
}

/* A schema map holds for longer than a minute, and no server is asked. */
static void schema_map(void) {
    mongocrypt_t *crypt = handle_of(1, map);
    want_state(crypt, insert, KEYS, "keys are asked for");
    want_sealed(crypt, insert, &(server){.keys = {keys[0]}});
    bson_t *other = BCON_NEW("find", "free", "filter", "{", "}"), *no_rules = BCON_NEW("name", "free");
    for (int minute = 0; minute < 3; minute++, later += 61) {
        bson_destroy(ended(sealing(crypt, other), &(server){.info = no_rules}, said));
        want_state(crypt, insert, minute ? KEYS : MONGOCRYPT_CTX_READY, "the schema map stays");
    }
    want_sealed(crypt, insert, &(server){.keys = {keys[0]}});
    bson_destroy(other), bson_destroy(no_rules), mongocrypt_destroy(crypt);
}

/* That a collection isn't there is forgotten with the context, however it ends, and seen by no other. */
static void absence(void) {
    mongocrypt_t *crypt = handle_of(1, NULL);
    bson_t *out = ended(sealing(crypt, find), &nothing, said);
    want(out && bson_equal(out, find), "a find of a missing collection");
    want_state(crypt, insert, INFO, "an insert asks again");
    mongocrypt_ctx_t *first = sealing(crypt, find), *second = sealing(crypt, insert), *third = sealing(crypt, insert);
    want(answer(first, &nothing) && mongocrypt_ctx_state(first) == MONGOCRYPT_CTX_READY, "the first is ready");
    want_state(crypt, insert, INFO, "an insert asks beside one that is ready");
    want(answer(second, &rules) && mongocrypt_ctx_state(second) == KEYS, "the second has rules");
    want(answer(third, &nothing) && mongocrypt_ctx_state(third) == KEYS, "what another learnt holds against absence");
    mongocrypt_ctx_destroy(first), mongocrypt_ctx_destroy(second);
    bson_t *sealed = ended(third, &both, said);
    want(sealed && !shows(sealed), "sealed");
    bson_t *wrong = BCON_NEW("find", "other", "filter", "{", "}", "find", "other");
    bson_destroy(ended(sealing(crypt, wrong), &nothing, said));
    bson_t *same = BCON_NEW("insert", "other", "documents", "[", "]");
    want_state(crypt, same, INFO, "absence is forgotten behind a refusal");
    bson_destroy(out), bson_destroy(sealed), bson_destroy(wrong), bson_destroy(same), mongocrypt_destroy(crypt);
}

/* Infos of other collections, two of them, and those of another kind. */
static void wrong_infos(void) {
    mongocrypt_t *crypt = handle_of(1, NULL);
    bson_t *other = info_of("other", schema), *no_name = BCON_NEW("type", "collection");
    bson_t *queryable = BCON_NEW("name", "people", "options", "{", "encryptedFields", "{", "}", "}");
    bson_t *view = BCON_NEW("name", "people", "type", "view"),
           *bad = BCON_NEW("properties", "{", "a", "{", "encrypt", "{", "algorithm", "x", "}", "}", "}"),
           *fault = info_of("people", bad);
    want_refusal(sealing(crypt, insert), &(server){.info = other}, "info of another", "");
    want_refusal(sealing(crypt, insert), &(server){.info = no_name}, "info of another", "");
    want_refusal(sealing(crypt, insert), &(server){.info = queryable}, "encryptedFields", "Queryable");
    want_refusal(sealing(crypt, insert), &(server){.info = fault}, "the collection's info", "fault");
    want_state(crypt, insert, INFO, "none of them is kept");
    mongocrypt_ctx_t *ctx = sealing(crypt, insert);
    bool is;
    WITH(is, info, mongocrypt_ctx_mongo_feed(ctx, handed));
    want(is, "an info fed");
    want_refusal(ctx, &(server){.info = info}, "with two", "");
    want_refusal(sealing(crypt, insert), &(server){.info = view}, "View", "");
    bson_destroy(other), bson_destroy(no_name), bson_destroy(queryable), bson_destroy(view), bson_destroy(bad);
    bson_destroy(fault), mongocrypt_destroy(crypt);
}

/* Vaults: a key missing, twice, of another bytes, of another master key, and a document that is no key. */
static void vaults(void) {
    uint8_t id[16];
    mongocrypt_t *crypt = handle_of(1, map), *other = handle_of(2, map);
    bson_t *none = BCON_NEW("x", BCON_INT32(1)), *foreign = new_key(other, NULL, NULL, id), *changed = bson_new();
    want_refusal(sealing(crypt, insert), &nothing, "KeyMissing", "documents.0.ssn");
    want_refusal(sealing(crypt, insert), &(server){.keys = {none}}, "a key of the vault", "fault");
    want_sealed(crypt, insert, &(server){.keys = {keys[0], keys[0]}});
    bson_copy_to_excluding_noinit(keys[1], changed, "_id", "keyAltNames", NULL);
    BSON_APPEND_BINARY(changed, "_id", BSON_SUBTYPE_UUID, ids[0], 16);
    bson_t *nested =
        BCON_NEW("insert", "people", "documents", "[", "{", "ssn", SECRET, "in", "{", "ssn", SECRET, "}", "}", "]");
    mongocrypt_ctx_t *ctx = sealing(crypt, nested);
    want(mongocrypt_ctx_state(ctx) == KEYS, "the other key is asked for");
    bson_t *sealed = ended(ctx, &(server){.keys = {changed, keys[1]}}, said);
    want(sealed && !shows(sealed), "a key of other bytes takes the place of the one that was kept");
    bson_destroy(sealed), mongocrypt_destroy(crypt), crypt = handle_of(2, map);
    want_refusal(sealing(crypt, insert), &(server){.keys = {keys[0]}}, "KeyDamaged", "documents.0.ssn");
    bson_destroy(none), bson_destroy(foreign), bson_destroy(changed), bson_destroy(nested);
    mongocrypt_destroy(crypt), mongocrypt_destroy(other);
}

/* While a context waits for an answer, others run through on the same thread, and their handle's minute ends. */
static void nested(void) {
    mongocrypt_t *crypt = handle_of(1, NULL);
    mongocrypt_ctx_t *ctx = sealing(crypt, insert);
    bson_t *vault = BCON_NEW("find", "keys", "filter", "{", "}"), *reply = BCON_NEW("ok", BCON_DOUBLE(1));
    bson_destroy(ended(sealing(crypt, vault), &nothing, said));
    want(answer(ctx, &rules) && mongocrypt_ctx_state(ctx) == KEYS, "keys are asked for");
    mongocrypt_ctx_t *inner = opening(crypt, reply);
    want(mongocrypt_ctx_state(inner) == MONGOCRYPT_CTX_READY, "a reply without payloads asks for no keys");
    bson_destroy(ended(inner, &nothing, said));
    later += 61;
    bson_destroy(ended(sealing(crypt, vault), &nothing, said));
    bson_t *sealed = ended(ctx, &both, said);
    want(sealed && !shows(sealed), "sealed behind all that");
    bson_destroy(vault), bson_destroy(reply), bson_destroy(sealed), mongocrypt_destroy(crypt);
}

/* Of the two keys that a context wants one was there when the other was asked for, and is forgotten by then. */
static void forgotten_between(void) {
    mongocrypt_t *crypt = handle_of(1, map);
    bson_t *two = BCON_NEW("find", "people", "filter", "{", "ssn", SECRET, "in.ssn", SECRET, "}");
    want_sealed(crypt, find, &(server){.keys = {keys[0]}});
    mongocrypt_ctx_t *ctx = sealing(crypt, two);
    later += 61;
    want(answer(ctx, &(server){.keys = {keys[1]}}) && mongocrypt_ctx_state(ctx) == KEYS, "a key is asked for again");
    bson_t *sealed = ended(ctx, &(server){.keys = {keys[0]}}, said);
    want(sealed && !shows(sealed), "sealed by both");
    bson_destroy(two), bson_destroy(sealed), mongocrypt_destroy(crypt);
}

/* Refusals name the field and the reason, at finalize; commands that libfle doesn't know are refused as it says. */
static void refusals(void) {
    mongocrypt_t *crypt = handle_of(1, map);
    mongocrypt_ctx_t *ctx = sealing_once(crypt, BCON_NEW("find", "people", "filter", "{", "pay", SECRET, "}"));
    want(mongocrypt_ctx_state(ctx) == MONGOCRYPT_CTX_READY && !*message_of(ctx), "a refusal waits for finalize");
    want_refusal(ctx, &nothing, "RandomCompared", "filter.pay");
    bson_t *deep = BCON_NEW("find", "people", "filter", "{", "ssn", "{", "$gt", SECRET, "}", "}");
    want_refusal(sealing_once(crypt, deep), &nothing, "OperatorOnProtected", "filter.ssn.$gt");
    deep = BCON_NEW("find", "people", "filter", "{", "ssn", "{", "$g\xc3\xa9\n", SECRET, "}", "}");
    want_refusal(sealing_once(crypt, deep), &nothing, "OperatorOnProtected", "filter.ssn.$g???:");
    static const char *const databases[] = {NULL, "",
                                            "0123456789012345678901234567890123456789012345678901234567890123"};
    for (int i = 0; i < 3; i++) {
        bool is;
        ctx = mongocrypt_ctx_new(crypt);
        WITH(is, insert, mongocrypt_ctx_encrypt_init(ctx, databases[i], -1, handed));
        want(!is && mongocrypt_ctx_state(ctx) == MONGOCRYPT_CTX_ERROR, "a database of no name is refused");
        mongocrypt_ctx_destroy(ctx);
    }
    static const char *const beyond[] = {"aggregate", "create", "collMod", "explain"};
    for (size_t i = 0; i < sizeof beyond / sizeof *beyond; i++)
        want_refusal(sealing_once(crypt, BCON_NEW(beyond[i], BCON_UTF8(i % 2 ? "people" : "free"), "x", SECRET)),
                     &nothing, "NotACommand", "");
    static const char *const listed[] = {"count", "drop", "listIndexes"};
    for (size_t i = 0; i < sizeof listed / sizeof *listed; i++)
        want_refusal(sealing_once(crypt, BCON_NEW(listed[i], "people", "x", SECRET)), &nothing, "FieldNotAllowed", "x");
    mongocrypt_destroy(crypt);
}

/* What passes as it is, and what is sealed beyond insert, update, delete and find. */
static void beyond_the_four(void) {
    mongocrypt_t *crypt = handle_of(1, map);
    bson_t *const pass[] = {BCON_NEW("ping", BCON_INT32(1)), BCON_NEW("drop", "people"),
                            BCON_NEW("count", "free", "query", "{", "a", "b", "}")};
    for (size_t i = 0; i < sizeof pass / sizeof *pass; i++) {
        bson_t *out = ended(sealing(crypt, pass[i]), &nothing, said);
        want(out && bson_equal(out, pass[i]), "it passes");
        bson_destroy(pass[i]), bson_destroy(out);
    }
    bson_t *const sealed[] = {BCON_NEW("count", "people", "query", "{", "ssn", SECRET, "}"),
                              BCON_NEW("distinct", "people", "key", "n", "query", "{", "ssn", SECRET, "}"),
                              BCON_NEW("findAndModify", "people", "query", "{", "ssn", SECRET, "}", "update", "{",
                                       "$set", "{", "pay", SECRET, "}", "}")};
    for (size_t i = 0; i < sizeof sealed / sizeof *sealed; i++) {
        bson_t *out = ended(sealing(crypt, sealed[i]), &both, said);
        want(out && !memmem(bson_get_data(out), out->len, SECRET, strlen(SECRET)), "it is sealed");
        bson_destroy(sealed[i]), bson_destroy(out);
    }
    mongocrypt_destroy(crypt);
}

int main(void) {
    begin_all();
    remote_rules(), schema_map(), absence(), wrong_infos(), vaults(), nested(), forgotten_between(), refusals(), beyond_the_four();
    return end_all();
}
