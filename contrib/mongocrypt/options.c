/* Options of a context. */
#include "inside.h"
bool may_set(mongocrypt_ctx_t *ctx) {
    if (!ctx || !mongocrypt_status_ok(&ctx->status)) return false;
    return ctx->work == NOTHING || FAIL(ctx, "cannot set options after init");
}

bool mongocrypt_ctx_setopt_key_id(mongocrypt_ctx_t *ctx, mongocrypt_binary_t *key_id) {
    if (!may_set(ctx)) return false;
    if (of(key_id).size != ID || ctx->id.size) return FAIL(ctx, "expected 16 byte UUID, once");
    return copy_for(ctx, &ctx->id, of(key_id));
}

/* The one element of an option's document, by its name. */
static bool find_option(mongocrypt_ctx_t *ctx, const mongocrypt_binary_t *binary, const char *name, element *found) {
    size_t at = 0;
    bool is = next(of(binary), &at, found) && !strcmp(found->name, name) && is_end(of(binary), at);
    return is || FAIL(ctx, "%s must have field '%s', and no other", name, name);
}

bool mongocrypt_ctx_setopt_key_alt_name(mongocrypt_ctx_t *ctx, mongocrypt_binary_t *key_alt_name) {
    element option;
    if (!may_set(ctx) || !find_option(ctx, key_alt_name, "keyAltName", &option)) return false;
    const char *name = text(&option);
    if (!name) return FAIL(ctx, "keyAltName expected to be UTF8");
    put(&ctx->names, name, strlen(name) + 1);
    return !ctx->names.failed || no_memory(&ctx->status) || failed(ctx);
}

bool mongocrypt_ctx_setopt_key_material(mongocrypt_ctx_t *ctx, mongocrypt_binary_t *key_material) {
    element option;
    if (!may_set(ctx) || !find_option(ctx, key_material, "keyMaterial", &option)) return false;
    if (option.type != BINARY || option.value.size != 5 + MATERIAL)
        return FAIL(ctx, "keyMaterial should have length 96");
    return copy_for(ctx, &ctx->material, (view){option.value.at + 5, MATERIAL});
}

bool mongocrypt_ctx_setopt_algorithm(mongocrypt_ctx_t *ctx, const char *algorithm, int len) {
    static const char *const known[] = {MONGOCRYPT_ALGORITHM_DETERMINISTIC_STR, MONGOCRYPT_ALGORITHM_RANDOM_STR};
    if (!may_set(ctx)) return false;
    if (!algorithm || len < -1 || ctx->algorithm) return FAIL(ctx, "invalid algorithm, or one that is set");
    size_t size = len == -1 ? strlen(algorithm) : (size_t)len;
    for (int i = 0; i < 2; i++)
        if (size == strlen(known[i]) && !memcmp(algorithm, known[i], size)) ctx->algorithm = true, ctx->random = i;
    return ctx->algorithm || FAIL(ctx, "unsupported algorithm: fle has the deterministic and the random one");
}

bool mongocrypt_ctx_setopt_masterkey_local(mongocrypt_ctx_t *ctx) { return may_set(ctx) && (ctx->local = true); }

/* {provider: "local"}, and nothing beside it. */
bool mongocrypt_ctx_setopt_key_encryption_key(mongocrypt_ctx_t *ctx, mongocrypt_binary_t *bin) {
    if (!may_set(ctx)) return false;
    element one;
    size_t at = 0;
    for (; next(of(bin), &at, &one); ctx->local = true) {
        const char *provider = text(&one);
        if (strcmp(one.name, "provider")) return FAIL(ctx, "Unexpected field: '%.60s'", one.name);
        if (!provider || strcmp(provider, "local"))
            return FAIL(ctx, "fle makes keys of the provider local alone, not of %.60s", provider ? provider : "none");
    }
    return (ctx->local && is_end(of(bin), at)) || FAIL(ctx, "expected UTF-8 provider");
}
