/* Binaries, statuses, and what libfle answers in words. WAY is the longest way to a field that a message says: drivers
 * cut a message at 504 bytes. */
#include "inside.h"
#include "reasons.h"
enum { WAY = 200 };

/* In the place of libmongocrypt 1.7.2. */
const char *mongocrypt_version(uint32_t *len) {
    if (len) *len = sizeof "1.7.2+fle" FLE_VERSION - 1;
    return "1.7.2+fle" FLE_VERSION;
}

struct _mongocrypt_binary_t {
    uint8_t *data;
    uint32_t len;
};

mongocrypt_binary_t *mongocrypt_binary_new(void) { return calloc(1, sizeof(mongocrypt_binary_t)); }
mongocrypt_binary_t *mongocrypt_binary_new_from_data(uint8_t *data, uint32_t len) {
    mongocrypt_binary_t *binary = mongocrypt_binary_new();
    if (binary) *binary = (mongocrypt_binary_t){data, len};
    return binary;
}

uint8_t *mongocrypt_binary_data(const mongocrypt_binary_t *binary) { return binary ? binary->data : NULL; }
uint32_t mongocrypt_binary_len(const mongocrypt_binary_t *binary) { return binary ? binary->len : 0; }
void mongocrypt_binary_destroy(mongocrypt_binary_t *binary) { free(binary); }
view of(const mongocrypt_binary_t *binary) { return binary ? (view){binary->data, binary->len} : NONE; }

bool show(mongocrypt_binary_t *binary, const bytes *all) {
    return *binary = (mongocrypt_binary_t){all->at, (uint32_t)all->size}, true;
}

mongocrypt_status_t *mongocrypt_status_new(void) { return calloc(1, sizeof(mongocrypt_status_t)); }
void mongocrypt_status_destroy(mongocrypt_status_t *status) { free(status); }
uint32_t mongocrypt_status_code(mongocrypt_status_t *status) { return status ? status->code : 0; }
bool mongocrypt_status_ok(mongocrypt_status_t *status) { return status && status->type == MONGOCRYPT_STATUS_OK; }
mongocrypt_status_type_t mongocrypt_status_type(mongocrypt_status_t *s) { return s ? s->type : MONGOCRYPT_STATUS_OK; }

const char *mongocrypt_status_message(mongocrypt_status_t *status, uint32_t *len) {
    bool has = status && *status->message;
    if (len) *len = has ? (uint32_t)strlen(status->message) : 0;
    return has ? status->message : NULL;
}

/* A length counts the 00. */
void mongocrypt_status_set(mongocrypt_status_t *status, mongocrypt_status_type_t type, uint32_t code,
                           const char *message, int32_t message_len) {
    if (!status) return;
    int size = message_len < 0 ? INT32_MAX : message_len - (message_len > 0);
    snprintf(status->message, sizeof status->message, "%.*s", size, message ? message : "");
    status->type = type, status->code = code;
}

bool told(const mongocrypt_status_t *from, mongocrypt_status_t *to) {
    if (to) *to = *from;
    return from->type == MONGOCRYPT_STATUS_OK;
}

/* Names in a message, of fields and options, are shown by what of them is printable. */
bool fail(mongocrypt_status_t *status, const char *format, ...) {
    va_list arguments;
    va_start(arguments, format);
    status->type = MONGOCRYPT_STATUS_ERROR_CLIENT, status->code = 1;
    vsnprintf(status->message, sizeof status->message, format, arguments);
    va_end(arguments);
    for (char *at = status->message; *at; at++)
        if (*at < ' ' || *at > '~') *at = '?';
    return false;
}
bool no_memory(mongocrypt_status_t *status) { return fail(status, "no memory could be had"); }
bool failed(mongocrypt_ctx_t *ctx) { return ctx->state = MONGOCRYPT_CTX_ERROR, false; }
bool copy_for(mongocrypt_ctx_t *ctx, bytes *to, view from) {
    return copy(to, from) || no_memory(&ctx->status) || failed(ctx);
}

/* The names on the way to the value that begins at an offset, joined by dots; empty for the document itself. */
static void find_way(view document, size_t place, char out[WAY]) {
    size_t used = 0, at = 0;
    element one;
    while (place && next(document, &at, &one)) {
        size_t value = (size_t)(one.value.at - document.at);
        bool inside = value < place && place < value + one.value.size && holds_document(&one);
        if (value != place && !inside) continue;
        int wrote = snprintf(out + used, WAY - used, "%s%s", used ? "." : "", one.name);
        if (wrote < 0 || (size_t)wrote >= WAY - used || !inside) return;
        used += (size_t)wrote;
        document = one.value, place -= value, at = 0;
    }
}

/* A sentence with the way to a field, the reason and its advice, and no value. The code is 100 times the status of
 * fle.h and the reason. */
bool explain(mongocrypt_status_t *status, fle_answer answer, const char *what, view document) {
    bool is_refusal = answer.status == FLE_REFUSED;
    char way[WAY] = "";
    size_t i = 0;
    while (REASONS[i].status && (REASONS[i].status != answer.status || REASONS[i].number != answer.reason)) i++;
    if (is_refusal) find_way(document, answer.place, way);
    if (answer.reason)
        fail(status, "fle refuses %.120s%s%s: %s %u, %s; %s", what, *way ? ", at " : "", way,
             is_refusal ? "reason" : "fault", answer.reason, REASONS[i].name, REASONS[i].advice);
    else
        fail(status, "fle refuses %.120s: %s, status %u of its library", what,
             answer.status == FLE_NO_NAMES ? "each is UTF-8, isn't empty, and stands once"
             : answer.status == FLE_MEMORY ? "no memory could be had"
                                           : "no reason is known",
             answer.status);
    status->code = 100 * answer.status + answer.reason;
    return false;
}
