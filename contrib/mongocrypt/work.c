/* What libfle is asked for a context. Each function wants the lock of the handle. A first call has so many random
 * bytes, and so much room beside twice the document's. */
#include "inside.h"
enum { FEW = 256, SPARE = 4096 };

/* A call of libfle for a context and a document of it, with random bytes and room. */
typedef fle_answer (*question)(mongocrypt_ctx_t *ctx, view in, view blocks, bytes *out);

/* Random bytes of the system's generator, in the place of those that were there. */
static bool draw(bytes *blocks, size_t size) {
    clear(blocks);
    if (!reserve(blocks, size)) return false;
    while (blocks->size < size) {
        ssize_t got = getrandom(blocks->at + blocks->size, size - blocks->size, 0);
        if (got < 0 && errno != EINTR) return false;
        if (got > 0) blocks->size += (size_t)got;
    }
    return true;
}

/* What libfle answers to a first call, or where that says that it wants more, to a second one that has as much. */
static fle_answer answer_of(mongocrypt_ctx_t *ctx, question ask, view in, bytes *out) {
    bytes blocks = {0};
    fle_answer answer = {FLE_ENTROPY, .length = 2 * in.size + SPARE, .random = ctx->work == OPEN ? 0 : FEW};
    for (int turn = 0; turn < 2 && (answer.status == FLE_ENTROPY || answer.status == FLE_NO_ROOM); turn++) {
        clear(out);
        bool has = reserve(out, answer.length) && draw(&blocks, answer.random);
        answer = has ? ask(ctx, in, seen(&blocks), out) : (fle_answer){.status = FLE_MEMORY};
    }
    clear(&blocks);
    if (answer.status == FLE_DONE) out->size = answer.length;
    return answer;
}

/* The work of a context, whole. Of a new key, material that was set takes the place of that which was drawn. */
static fle_answer make(mongocrypt_ctx_t *ctx, view in, view blocks, bytes *out) {
    fle_slot *engine = &ctx->crypt->engine;
    view db = seen(&ctx->db), key = ctx->key, old = seen(&ctx->crypt->master);
    int64_t now = 1000 * (int64_t)time(NULL);
    uint8_t *to = out->at;
    size_t room = out->room;
    if (ctx->work == SEAL) return fle_seal(engine, db.at, db.size, in.at, in.size, blocks.at, blocks.size, to, room);
    if (ctx->work == OPEN) return fle_unseal(engine, in.at, in.size, to, room);
    if (ctx->work == SEAL_VALUE)
        return fle_seal_value(engine, !ctx->id.size, key.at, key.size, ctx->random, in.at, in.size, blocks.at,
                              blocks.size, to, room);
    if (ctx->work == REWRAP)
        return fle_rewrap_key(engine, old.at, old.size, now, in.at, in.size, blocks.at, blocks.size, to, room);
    if (ctx->material.size) memcpy((uint8_t *)blocks.at + ID, ctx->material.at, MATERIAL);
    return fle_make_key(engine, in.at, in.size, now, blocks.at, blocks.size, to, room);
}

/* The filter of the command's info, or of the keys that the engine lacks. */
static fle_answer wanted(mongocrypt_ctx_t *ctx, view in, view blocks, bytes *out) {
    fle_slot *engine = &ctx->crypt->engine;
    view db = seen(&ctx->db);
    (void)blocks;
    if (ctx->state == MONGOCRYPT_CTX_NEED_MONGO_COLLINFO)
        return fle_info_wanted(engine, db.at, db.size, in.at, in.size, out->at, out->room);
    if (ctx->work == SEAL) return fle_keys_wanted(engine, db.at, db.size, in.at, in.size, out->at, out->room);
    if (ctx->work == OPEN) return fle_keys_wanted_open(engine, in.at, in.size, out->at, out->room);
    return fle_value_keys_wanted(engine, !ctx->id.size, ctx->key.at, ctx->key.size, out->at, out->room);
}

/* Always false: why there is no answer. */
static bool refuse(mongocrypt_ctx_t *ctx, fle_answer answer) {
    static const char *const names[] = {"", "the command", "the document", "the value", "the names of a new key", ""};
    return explain(&ctx->status, answer, names[ctx->work], seen(&ctx->input));
}

/* Has the driver asked, by a filter that libfle writes; where it writes none, the refusal before it is told. */
static bool ask(mongocrypt_ctx_t *ctx, mongocrypt_ctx_state_t state, fle_answer refusal) {
    ctx->state = state;
    fle_answer answer = answer_of(ctx, wanted, seen(&ctx->input), &ctx->asked);
    clear(&ctx->fed);
    return (answer.status == FLE_DONE && answer.length) || refuse(ctx, answer.status ? answer : refusal);
}

/* What becomes of a context by an answer to its work: it is ready, asks for an info or for keys, or fails. What was
 * just told isn't asked for again; keys are, where they were forgotten in between. */
static bool become(mongocrypt_ctx_t *ctx, fle_answer answer) {
    bool lacks = answer.status == FLE_REFUSED && answer.reason == FLE_REASON_KEY_MISSING;
    if (answer.status == FLE_DONE) return ctx->state = MONGOCRYPT_CTX_READY, true;
    if (answer.status == FLE_NO_INFO && ctx->state != MONGOCRYPT_CTX_NEED_MONGO_COLLINFO)
        return ask(ctx, MONGOCRYPT_CTX_NEED_MONGO_COLLINFO, answer);
    if (!lacks || (ctx->asked_keys && ctx->forgotten == ctx->crypt->forgotten)) return refuse(ctx, answer);
    ctx->asked_keys = true, ctx->forgotten = ctx->crypt->forgotten;
    return ask(ctx, MONGOCRYPT_CTX_NEED_MONGO_KEYS, answer);
}

static fle_answer made(mongocrypt_ctx_t *ctx) { return answer_of(ctx, make, seen(&ctx->input), &ctx->out); }
bool proceed(mongocrypt_ctx_t *ctx) { return become(ctx, made(ctx)); }

/* Behind the answer that there is no such collection. The engine is told so for this one command, and has forgotten it
 * before another call finds the lock. Where another context learnt of the collection in between, that holds. */
static bool proceed_without_info(mongocrypt_ctx_t *ctx, view name) {
    fle_slot *engine = &ctx->crypt->engine;
    view db = seen(&ctx->db), none = seen(&ctx->asked);
    fle_answer answer = made(ctx);
    if (answer.status == FLE_NO_INFO) {
        answer = fle_put_info(engine, db.at, db.size, none.at, none.size);
        if (answer.status == FLE_DONE) answer = made(ctx);
        fle_forget_info(engine, db.at, db.size, name.at + 4, name.size - 5);
    }
    return become(ctx, answer);
}

/* By the info that came, or by none. */
bool proceed_with_info(mongocrypt_ctx_t *ctx) {
    element asked, name, options, fields;
    view info = seen(&ctx->fed), db = seen(&ctx->db);
    if (!find(seen(&ctx->asked), "name", &asked)) return fail(&ctx->status, "libfle asks for no collection by name");
    if (!info.size) return proceed_without_info(ctx, asked.value);
    if (!find(info, "name", &name) || name.type != asked.type || !is_same(name.value, asked.value))
        return fail(&ctx->status, "the server answered with the info of another collection, or with two");
    if (find(info, "options", &options) && holds_document(&options) && find(options.value, "encryptedFields", &fields))
        return fail(&ctx->status, "the collection has encryptedFields: fle has no Queryable Encryption");
    fle_answer answer = fle_put_info(&ctx->crypt->engine, db.at, db.size, info.at, info.size);
    if (answer.status != FLE_DONE) return explain(&ctx->status, answer, "the collection's info", NONE);
    keep(&ctx->crypt->infos_since);
    return proceed(ctx);
}

/* Tells the engine of each key that came. */
static fle_answer put_keys(mongocrypt_ctx_t *ctx) {
    fle_answer answer = {.status = FLE_DONE};
    for (size_t at = 0, size; at < ctx->fed.size && answer.status == FLE_DONE; at += size) {
        size = number(ctx->fed.at + at);
        answer = fle_put_key(&ctx->crypt->engine, ctx->fed.at + at, size);
    }
    keep(&ctx->crypt->keys_since);
    return answer;
}

/* By the keys that came. Where one isn't as it was kept, all that was kept is forgotten. */
bool proceed_with_keys(mongocrypt_ctx_t *ctx) {
    fle_answer answer = put_keys(ctx);
    if (answer.reason == FLE_KEY_ID_TWICE || answer.reason == FLE_KEY_NAME_TWICE) {
        forget_keys(ctx->crypt);
        answer = put_keys(ctx);
    }
    return answer.status == FLE_DONE ? proceed(ctx) : explain(&ctx->status, answer, "a key of the vault", NONE);
}

/* What a driver changes of a key. libfle takes no block for one of another provider. */
static bool put_rewrapped(mongocrypt_ctx_t *ctx, view key, const char *index) {
    static const char *const names[] = {"_id", "keyMaterial", "masterKey"};
    bytes new = {0};
    element part;
    fle_answer answer = answer_of(ctx, make, key, &new);
    bool good = answer.status == FLE_DONE || explain(&ctx->status, answer, "a key of the vault", NONE);
    if (good && !answer.random) good = fail(&ctx->status, "fle rewraps keys of the provider local alone");
    size_t all = begin(&ctx->out, DOCUMENT, index);
    for (size_t i = 0; good && i < 3; i++) {
        good = find(seen(&new), names[i], &part) || fail(&ctx->status, "a key of the vault has no %s", names[i]);
        if (good) put_element(&ctx->out, part.type, names[i], part.value);
    }
    end(&ctx->out, all);
    clear(&new);
    return good;
}

/* The keys that came, each under the master key once more, as {v: [..]}; without one there is nothing to do. */
bool rewrap(mongocrypt_ctx_t *ctx) {
    size_t count = 0, all = begin(&ctx->out, DOCUMENT, NULL), list = begin(&ctx->out, ARRAY, "v");
    char index[24];
    for (size_t at = 0, size; at < ctx->fed.size; at += size) {
        size = number(ctx->fed.at + at);
        snprintf(index, sizeof index, "%zu", count++);
        if (!put_rewrapped(ctx, (view){ctx->fed.at + at, size}, index)) return false;
    }
    end(&ctx->out, list), end(&ctx->out, all);
    ctx->state = count ? MONGOCRYPT_CTX_READY : MONGOCRYPT_CTX_DONE;
    return !ctx->out.failed || no_memory(&ctx->status);
}
