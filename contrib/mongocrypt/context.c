/* Contexts: how each begins, and the states that a driver goes through. */
#include "inside.h"
mongocrypt_ctx_t *mongocrypt_ctx_new(mongocrypt_t *crypt) {
    bool ready = crypt && (crypt->ready || fail(&crypt->status, "cannot create context from uninitialized crypt"));
    mongocrypt_ctx_t *ctx = ready ? calloc(1, sizeof *ctx) : NULL;
    if (ctx) ctx->crypt = crypt;
    return ctx;
}

void mongocrypt_ctx_destroy(mongocrypt_ctx_t *ctx) {
    if (!ctx) return;
    clear(&ctx->db), clear(&ctx->input), clear(&ctx->asked), clear(&ctx->fed), clear(&ctx->out);
    clear(&ctx->id), clear(&ctx->material), clear(&ctx->names);
    free(ctx);
}

bool mongocrypt_ctx_status(mongocrypt_ctx_t *ctx, mongocrypt_status_t *to) { return ctx && told(&ctx->status, to); }
mongocrypt_ctx_state_t mongocrypt_ctx_state(mongocrypt_ctx_t *ctx) { return ctx ? ctx->state : MONGOCRYPT_CTX_ERROR; }

/* Whether a context may begin with a document, which is copied. */
static bool can_begin(mongocrypt_ctx_t *ctx, work work, view document) {
    if (!ctx || !mongocrypt_status_ok(&ctx->status)) return false;
    if (ctx->work != NOTHING) return FAIL(ctx, "already initialized");
    ctx->work = work;
    return is_document(document) ? copy_for(ctx, &ctx->input, document) : FAIL(ctx, "invalid BSON");
}

/* One of the steps of work.c, under the lock. */
static bool locked(mongocrypt_ctx_t *ctx, bool (*step)(mongocrypt_ctx_t *)) {
    pthread_mutex_lock(&ctx->crypt->lock);
    bool good = freshen(ctx->crypt, &ctx->status) && step(ctx);
    pthread_mutex_unlock(&ctx->crypt->lock);
    return good;
}

/* The first step. A refusal is told by finalize: where an init fails, drivers lose its message, or leak the context. */
static bool begun(mongocrypt_ctx_t *ctx) {
    if (locked(ctx, proceed)) return true;
    ctx->refused = true, ctx->late = ctx->status;
    ctx->status = (mongocrypt_status_t){0}, ctx->state = MONGOCRYPT_CTX_READY;
    return true;
}

bool mongocrypt_ctx_encrypt_init(mongocrypt_ctx_t *ctx, const char *db, int32_t db_len, mongocrypt_binary_t *cmd) {
    if (!can_begin(ctx, SEAL, of(cmd))) return false;
    if (ctx->id.size || ctx->names.size || ctx->algorithm) return FAIL(ctx, "options of explicit encryption are set");
    size_t size = !db ? 0 : db_len < 0 ? strlen(db) : (size_t)db_len;
    if (!size || size > 63 || memchr(db, 0, size)) return FAIL(ctx, "invalid db");
    if (!copy_for(ctx, &ctx->db, (view){(const uint8_t *)db, size})) return false;
    if (!ctx->crypt->bypass) return begun(ctx);
    ctx->state = MONGOCRYPT_CTX_READY;
    return copy_for(ctx, &ctx->out, seen(&ctx->input));
}

bool mongocrypt_ctx_decrypt_init(mongocrypt_ctx_t *ctx, mongocrypt_binary_t *doc) {
    return can_begin(ctx, OPEN, of(doc)) && begun(ctx);
}

bool mongocrypt_ctx_explicit_decrypt_init(mongocrypt_ctx_t *ctx, mongocrypt_binary_t *msg) {
    element value;
    if (!can_begin(ctx, OPEN, of(msg))) return false;
    bool is = find(of(msg), "v", &value) && value.type == BINARY && value.value.at[4] == 6;
    return is ? begun(ctx) : FAIL(ctx, "invalid msg, must contain 'v', a BSON binary of subtype 6");
}

bool mongocrypt_ctx_explicit_encrypt_init(mongocrypt_ctx_t *ctx, mongocrypt_binary_t *msg) {
    element value;
    if (!can_begin(ctx, SEAL_VALUE, of(msg))) return false;
    const char *why = NULL;
    if (!ctx->algorithm) why = "algorithm is required";
    if (!ctx->id.size && !ctx->names.size) why = "either key id or key alt name required";
    if (ctx->names.size && (ctx->id.size || ctx->names.size != strlen((char *)ctx->names.at) + 1))
        why = "cannot have both key id and key alt name, or two names";
    if (!find(of(msg), "v", &value)) why = "invalid msg, must contain 'v'";
    ctx->key = ctx->id.size ? seen(&ctx->id) : (view){ctx->names.at, ctx->names.size - 1};
    return why ? FAIL(ctx, "%s", why) : begun(ctx);
}

/* A new key, of the names that were set. */
bool mongocrypt_ctx_datakey_init(mongocrypt_ctx_t *ctx) {
    bytes names = {0};
    char index[24];
    size_t all = begin(&names, DOCUMENT, NULL), size = ctx ? ctx->names.size : 0, count = 0;
    size_t list = size ? begin(&names, ARRAY, "keyAltNames") : 0;
    for (size_t at = 0; at < size; at += strlen((char *)ctx->names.at + at) + 1) {
        snprintf(index, sizeof index, "%zu", count++);
        put_text(&names, index, (char *)ctx->names.at + at);
    }
    if (size) end(&names, list);
    end(&names, all);
    bool good = can_begin(ctx, MAKE_KEY, seen(&names));
    clear(&names);
    return good && (ctx->local ? begun(ctx) : FAIL(ctx, "master key required"));
}

bool mongocrypt_ctx_rewrap_many_datakey_init(mongocrypt_ctx_t *ctx, mongocrypt_binary_t *filter) {
    if (!can_begin(ctx, REWRAP, of(filter))) return false;
    ctx->state = MONGOCRYPT_CTX_NEED_MONGO_KEYS;
    return copy_for(ctx, &ctx->asked, of(filter));
}

static bool is_asking(mongocrypt_ctx_t *ctx) {
    if (!ctx || !mongocrypt_status_ok(&ctx->status)) return false;
    return ctx->state == MONGOCRYPT_CTX_NEED_MONGO_COLLINFO || ctx->state == MONGOCRYPT_CTX_NEED_MONGO_KEYS ||
           FAIL(ctx, "wrong state");
}

bool mongocrypt_ctx_mongo_op(mongocrypt_ctx_t *ctx, mongocrypt_binary_t *op_bson) {
    if (!is_asking(ctx)) return false;
    return op_bson ? show(op_bson, &ctx->asked) : FAIL(ctx, "invalid NULL output");
}

bool mongocrypt_ctx_mongo_feed(mongocrypt_ctx_t *ctx, mongocrypt_binary_t *reply) {
    if (!is_asking(ctx)) return false;
    if (!is_document(of(reply))) return FAIL(ctx, "invalid BSON");
    put(&ctx->fed, of(reply).at, of(reply).size);
    return !ctx->fed.failed || no_memory(&ctx->status) || failed(ctx);
}

bool mongocrypt_ctx_mongo_done(mongocrypt_ctx_t *ctx) {
    if (!is_asking(ctx)) return false;
    bool asks_info = ctx->state == MONGOCRYPT_CTX_NEED_MONGO_COLLINFO;
    return locked(ctx, asks_info ? proceed_with_info : ctx->work == REWRAP ? rewrap : proceed_with_keys) || failed(ctx);
}

bool mongocrypt_ctx_finalize(mongocrypt_ctx_t *ctx, mongocrypt_binary_t *out) {
    if (!ctx || !mongocrypt_status_ok(&ctx->status)) return false;
    if (!out) return FAIL(ctx, "out cannot be null");
    if (ctx->state != MONGOCRYPT_CTX_READY) return FAIL(ctx, "wrong state");
    if (ctx->refused) return ctx->status = ctx->late, failed(ctx);
    ctx->state = MONGOCRYPT_CTX_DONE;
    return show(out, &ctx->out);
}
