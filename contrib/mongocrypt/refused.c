/* What fle hasn't: each call that names it is refused by a sentence, and one of a state that never comes fails. */
#include "inside.h"
#pragma GCC diagnostic ignored "-Wunused-parameter"

#define HOOKS "fle calls no crypto hooks: it computes by code that is proved"
#define QUERYABLE "fle has no Queryable Encryption"
#define LOCAL "fle has the provider local alone, not aws"
#define REFUSED(name, why, ...) \
    bool mongocrypt_##name(mongocrypt_t *crypt, __VA_ARGS__) { return can_set(crypt) && fail(&crypt->status, why); }
#define REFUSED_IN_CONTEXT(name, why, ...) \
    bool mongocrypt_ctx_##name(mongocrypt_ctx_t *ctx, __VA_ARGS__) { return may_set(ctx) && FAIL(ctx, why); }

REFUSED(setopt_kms_provider_aws, LOCAL, const char *id, int32_t id_size, const char *secret, int32_t secret_size)
REFUSED(setopt_encrypted_field_config_map, QUERYABLE, mongocrypt_binary_t *map)
REFUSED(setopt_crypto_hooks, HOOKS, mongocrypt_crypto_fn encrypt, mongocrypt_crypto_fn decrypt,
        mongocrypt_random_fn random, mongocrypt_hmac_fn hmac_512, mongocrypt_hmac_fn hmac_256, mongocrypt_hash_fn hash,
        void *of_hooks)
REFUSED(setopt_aes_256_ctr, HOOKS, mongocrypt_crypto_fn encrypt, mongocrypt_crypto_fn decrypt, void *of_hooks)
REFUSED(setopt_aes_256_ecb, HOOKS, mongocrypt_crypto_fn encrypt, void *of_hook)
REFUSED(setopt_crypto_hook_sign_rsaes_pkcs1_v1_5, HOOKS, mongocrypt_hmac_fn sign, void *of_hook)
REFUSED_IN_CONTEXT(setopt_masterkey_aws, LOCAL, const char *region, int32_t region_size, const char *key, int32_t size)
REFUSED_IN_CONTEXT(setopt_masterkey_aws_endpoint, LOCAL, const char *endpoint, int32_t size)
REFUSED_IN_CONTEXT(setopt_contention_factor, QUERYABLE, int64_t factor)
REFUSED_IN_CONTEXT(setopt_index_key_id, QUERYABLE, mongocrypt_binary_t *id)
REFUSED_IN_CONTEXT(setopt_query_type, QUERYABLE, const char *type, int size)
REFUSED_IN_CONTEXT(setopt_algorithm_range, QUERYABLE, mongocrypt_binary_t *options)
REFUSED_IN_CONTEXT(explicit_encrypt_expression_init, QUERYABLE, mongocrypt_binary_t *message)

/* Drivers call these three without being asked to; fle loads no other library, and asks for no credentials. */
void mongocrypt_setopt_append_crypt_shared_lib_search_path(mongocrypt_t *crypt, const char *path) {}
void mongocrypt_setopt_set_crypt_shared_lib_path_override(mongocrypt_t *crypt, const char *path) {}
void mongocrypt_setopt_use_need_kms_credentials_state(mongocrypt_t *crypt) {}

/* Key services: no context comes to their states. */
mongocrypt_kms_ctx_t *mongocrypt_ctx_next_kms_ctx(mongocrypt_ctx_t *ctx) { return NULL; }
bool mongocrypt_kms_ctx_message(mongocrypt_kms_ctx_t *kms, mongocrypt_binary_t *message) { return false; }
bool mongocrypt_kms_ctx_endpoint(mongocrypt_kms_ctx_t *kms, const char **endpoint) { return false; }
uint32_t mongocrypt_kms_ctx_bytes_needed(mongocrypt_kms_ctx_t *kms) { return 0; }
bool mongocrypt_kms_ctx_feed(mongocrypt_kms_ctx_t *kms, mongocrypt_binary_t *reply) { return false; }
bool mongocrypt_kms_ctx_status(mongocrypt_kms_ctx_t *kms, mongocrypt_status_t *status) { return false; }
const char *mongocrypt_kms_ctx_get_kms_provider(mongocrypt_kms_ctx_t *kms, uint32_t *len) {
    return len ? *len = 0, NULL : NULL;
}
bool mongocrypt_ctx_kms_done(mongocrypt_ctx_t *ctx) { return ctx && FAIL(ctx, "wrong state"); }
bool mongocrypt_ctx_provide_kms_providers(mongocrypt_ctx_t *ctx, mongocrypt_binary_t *providers) {
    return ctx && FAIL(ctx, "fle asks for no credentials");
}
