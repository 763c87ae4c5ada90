/* The handle: its options, and the engine that all its contexts share. */
#include "inside.h"
enum { KEPT_SECONDS = 60 };

mongocrypt_t *mongocrypt_new(void) {
    mongocrypt_t *crypt = calloc(1, sizeof *crypt);
    if (crypt) pthread_mutex_init(&crypt->lock, NULL);
    return crypt;
}

void mongocrypt_destroy(mongocrypt_t *crypt) {
    if (!crypt) return;
    fle_close(&crypt->engine);
    clear(&crypt->master), clear(&crypt->schemas);
    pthread_mutex_destroy(&crypt->lock);
    free(crypt);
}

bool mongocrypt_status(mongocrypt_t *crypt, mongocrypt_status_t *to) { return crypt && told(&crypt->status, to); }

/* Behind a refusal no option is taken, and no init: drivers don't look at each answer. */
bool can_set(mongocrypt_t *crypt) {
    if (!crypt || !mongocrypt_status_ok(&crypt->status)) return false;
    return !crypt->ready || fail(&crypt->status, "options cannot be set after initialization");
}

/* Nothing is logged: what fails is told by a status. */
bool mongocrypt_setopt_log_handler(mongocrypt_t *crypt, mongocrypt_log_fn_t log_fn, void *log_ctx) {
    return (void)log_fn, (void)log_ctx, can_set(crypt);
}

bool mongocrypt_setopt_kms_provider_local(mongocrypt_t *crypt, mongocrypt_binary_t *key) {
    return can_set(crypt) && (copy(&crypt->master, of(key)) || no_memory(&crypt->status));
}

/* Of a local key, 96 bytes or their base64, libfle tells in mongocrypt_init whether it is one. */
bool mongocrypt_setopt_kms_providers(mongocrypt_t *crypt, mongocrypt_binary_t *kms_providers) {
    if (!can_set(crypt)) return false;
    element provider, key;
    size_t at = 0;
    while (next(of(kms_providers), &at, &provider)) {
        if (strcmp(provider.name, "local"))
            return fail(&crypt->status, "fle opens keys of the provider local alone, not of %.60s", provider.name);
        if (!holds_document(&provider) || !find(provider.value, "key", &key))
            return fail(&crypt->status, "kms provider local has no key; fle asks for no credentials on demand");
        bool binary = key.type == BINARY;
        if (!binary && !text(&key)) return fail(&crypt->status, "local key must be 96 bytes, or their base64");
        if (!copy(&crypt->master, (view){key.value.at + 4 + binary, key.value.size - 5}))
            return no_memory(&crypt->status);
    }
    return is_end(of(kms_providers), at) || fail(&crypt->status, "invalid BSON in kms providers");
}

bool mongocrypt_setopt_schema_map(mongocrypt_t *crypt, mongocrypt_binary_t *schema_map) {
    if (!can_set(crypt)) return false;
    if (!is_document(of(schema_map))) return fail(&crypt->status, "invalid schema map");
    return copy(&crypt->schemas, of(schema_map)) || no_memory(&crypt->status);
}

void mongocrypt_setopt_bypass_query_analysis(mongocrypt_t *crypt) {
    if (crypt && !crypt->ready) crypt->bypass = true;
}

/* Tells the engine each schema of the map, as the info of its collection. */
static bool put_schemas(mongocrypt_t *crypt, mongocrypt_status_t *status) {
    view map = seen(&crypt->schemas);
    element schema, first;
    size_t at = 0;
    while (next(map, &at, &schema)) {
        const char *dot = strchr(schema.name, '.');
        bool twice = find(map, schema.name, &first) && first.value.at != schema.value.at;
        if (!dot || !holds_document(&schema) || twice)
            return fail(status, "malformed schema in schema map, of %.120s", schema.name);
        bytes info = {0};
        size_t all = begin(&info, DOCUMENT, NULL);
        put_text(&info, "name", dot + 1);
        size_t options = begin(&info, DOCUMENT, "options"), validator = begin(&info, DOCUMENT, "validator");
        put_element(&info, schema.type, "$jsonSchema", schema.value);
        end(&info, validator), end(&info, options), end(&info, all);
        view db = {(const uint8_t *)schema.name, (size_t)(dot - schema.name)};
        fle_answer answer = {.status = FLE_MEMORY};
        if (!info.failed) answer = fle_put_info(&crypt->engine, db.at, db.size, info.at, info.size);
        clear(&info);
        if (answer.status != FLE_DONE) return explain(status, answer, schema.name, NONE);
    }
    return !map.size || is_end(map, at) || fail(status, "invalid schema map");
}

bool mongocrypt_init(mongocrypt_t *crypt) {
    if (!crypt || !mongocrypt_status_ok(&crypt->status)) return false;
    if (crypt->ready) return fail(&crypt->status, "already initialized");
    if (!crypt->master.size) return fail(&crypt->status, "no kms provider set: fle wants local");
    fle_answer answer = fle_start(&crypt->engine, FLAGS, crypt->master.at, crypt->master.size);
    if (answer.status != FLE_DONE) return explain(&crypt->status, answer, "the local key", NONE);
    return crypt->ready = put_schemas(crypt, &crypt->status);
}

/* A version, since fle marks in this process, as crypt_shared does: a driver that asks for it starts no mongocryptd. */
const char *mongocrypt_crypt_shared_lib_version_string(const mongocrypt_t *crypt, uint32_t *len) {
    bool ready = crypt && crypt->ready;
    if (len) *len = ready ? sizeof "fle " FLE_VERSION - 1 : 0;
    return ready ? "fle " FLE_VERSION : NULL;
}

uint64_t mongocrypt_crypt_shared_lib_version(const mongocrypt_t *crypt) {
    unsigned first, second, third;
    if (!crypt || !crypt->ready || sscanf(FLE_VERSION, "%u.%u.%u", &first, &second, &third) != 3) return 0;
    return (uint64_t)first << 48 | (uint64_t)second << 32 | (uint64_t)third << 16;
}

/* Seconds of a clock that isn't set, never 0. */
static long now(void) {
    struct timespec time;
    clock_gettime(CLOCK_MONOTONIC, &time);
    return (long)time.tv_sec + 1;
}

/* Says that something is kept from now on, where nothing was. */
void keep(long *since) {
    if (!*since) *since = now();
}

void forget_keys(mongocrypt_t *crypt) {
    fle_forget_keys(&crypt->engine);
    crypt->keys_since = 0, crypt->forgotten++;
}

/* Forgets what was kept for a minute. The schema map is told again, and where it can't be, no call goes on: this one
 * and those after it try again. */
bool freshen(mongocrypt_t *crypt, mongocrypt_status_t *status) {
    if (crypt->keys_since && now() - crypt->keys_since >= KEPT_SECONDS) forget_keys(crypt);
    if (!crypt->infos_since || now() - crypt->infos_since < KEPT_SECONDS) return true;
    fle_forget_infos(&crypt->engine);
    if (!put_schemas(crypt, status)) return false;
    crypt->infos_since = 0;
    return true;
}
