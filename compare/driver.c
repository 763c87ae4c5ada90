/* The client's part of field level encryption by libmongocrypt, over streams, for compare/run to hold beside fle:
 *
 *     driver encrypt DB KEYS SCHEMAS MASTER REPLIES [--on] [--fresh] [--asks FILE]   < commands > sealed commands
 *     driver decrypt KEYS MASTER [--on] [--fresh] [--asks FILE]                      < documents > opened documents
 *     driver keygen MASTER [NAME ..]                                                 > one key document
 *
 * The driver does the input and output of libmongocrypt's states and nothing else: collection infos come from SCHEMAS
 * and keys from KEYS, both BSON documents one behind the other, and are looked up by the filter that the library asks
 * with. The markings of command n are document n of REPLIES, which `fle mark` wrote. MASTER has 96 bytes. All
 * cryptography is the library's.
 *
 * Where the library refuses, `refused N: MESSAGE` goes to standard error, N being the number of the document from 1,
 * and the run ends with status 1; with --on it goes on with the next document, writes nothing for this one, and ends
 * with status 0. --fresh begins each document with empty caches, so that the library asks for everything each time.
 * --asks writes a line for each thing asked: the document's number, `collinfo`, `markings` or `keys`, the bytes in hex.
 */
#include <bson/bson.h>
#include <mongocrypt.h>
#include <stdio.h>
#include <stdlib.h>
#include <string.h>

typedef struct {
    uint8_t *data;
    size_t len, at;
} bytes_t;

static bytes_t keys, schemas, master, replies;
static mongocrypt_t *library;
static FILE *asks;
static bool goes_on, starts_fresh;

static void fail(const char *what)
{
    fprintf(stderr, "driver: %s\n", what);
    exit(2);
}

static bytes_t bytes_of(FILE *file)
{
    bytes_t read = {0};
    size_t room = 1 << 16, n;
    if (!file || !(read.data = malloc(room))) fail("a file is missing");
    while ((n = fread(read.data + read.len, 1, room - read.len, file)) > 0) {
        read.len += n;
        if (read.len == room && !(read.data = realloc(read.data, room *= 2))) fail("no memory");
    }
    if (file != stdin) fclose(file);
    return read;
}

static bytes_t file_of(const char *name)
{
    return bytes_of(fopen(name, "rb"));
}

/* The next document of a row of them, by its stated length; false at the end. */
static bool next(bytes_t *row, bson_t *document)
{
    int32_t length;
    if (row->at == row->len) return false;
    if (row->len - row->at < 5) fail("a document is cut off");
    memcpy(&length, row->data + row->at, 4);
    if (length < 5 || (size_t) length > row->len - row->at) fail("a document is cut off");
    if (!bson_init_static(document, row->data + row->at, length)) fail("libbson takes no such document");
    row->at += length;
    return true;
}

static void begin_library(void)
{
    library = mongocrypt_new();
    mongocrypt_binary_t *bin = mongocrypt_binary_new_from_data(master.data, master.len);
    bool well = mongocrypt_setopt_kms_provider_local(library, bin) && mongocrypt_init(library);
    if (!well) fail("the library takes no such master key");
    mongocrypt_binary_destroy(bin);
}

/* The message of a context, or of the library where the context has none. */
static void tell(mongocrypt_ctx_t *ctx, char *message, size_t room)
{
    mongocrypt_status_t *status = mongocrypt_status_new();
    mongocrypt_ctx_status(ctx, status);
    const char *said = mongocrypt_status_message(status, NULL);
    snprintf(message, room, "%s", said ? said : "no message");
    mongocrypt_status_destroy(status);
}

static bool feed(mongocrypt_ctx_t *ctx, const uint8_t *data, size_t len)
{
    mongocrypt_binary_t *bin = mongocrypt_binary_new_from_data((uint8_t *) data, len);
    bool fed = mongocrypt_ctx_mongo_feed(ctx, bin);
    mongocrypt_binary_destroy(bin);
    return fed;
}

static void write_ask(long number, const char *name, mongocrypt_binary_t *asked)
{
    if (!asks) return;
    fprintf(asks, "%ld %s ", number, name);
    for (uint32_t i = 0; i < mongocrypt_binary_len(asked); i++) fprintf(asks, "%02x", mongocrypt_binary_data(asked)[i]);
    fputc('\n', asks);
}

/* The info of the name that the filter asks for, if there is one. */
static bool feed_infos(mongocrypt_ctx_t *ctx, bson_t *filter)
{
    bson_iter_t wanted, found;
    bson_t info;
    if (!bson_iter_init_find(&wanted, filter, "name")) fail("a collection filter without a name");
    for (schemas.at = 0; next(&schemas, &info);) {
        if (!bson_iter_init_find(&found, &info, "name")) continue;
        if (strcmp(bson_iter_utf8(&found, NULL), bson_iter_utf8(&wanted, NULL))) continue;
        return feed(ctx, bson_get_data(&info), info.len);
    }
    return true;
}

/* Whether one of the values of `$in` is the same as the value. */
static bool is_among(bson_iter_t list, const bson_value_t *value)
{
    while (bson_iter_next(&list)) {
        const bson_value_t *other = bson_iter_value(&list);
        if (other->value_type != value->value_type) continue;
        bool is_text = value->value_type == BSON_TYPE_UTF8, is_binary = value->value_type == BSON_TYPE_BINARY;
        if (is_text && !strcmp(other->value.v_utf8.str, value->value.v_utf8.str)) return true;
        uint32_t length = is_binary ? value->value.v_binary.data_len : 0;
        if (!is_binary || other->value.v_binary.data_len != length) continue;
        if (!memcmp(other->value.v_binary.data, value->value.v_binary.data, length)) return true;
    }
    return false;
}

/* The list at a dotted path of a key filter. */
static bson_iter_t list_at(bson_t *filter, const char *path)
{
    bson_iter_t it, at, list;
    bool well = bson_iter_init(&it, filter) && bson_iter_find_descendant(&it, path, &at);
    if (!well || !bson_iter_recurse(&at, &list)) fail("a key filter of another form");
    return list;
}

static bool matches(bson_t *key, bson_t *filter)
{
    bson_iter_t at, name, ids = list_at(filter, "$or.0._id.$in"), names = list_at(filter, "$or.1.keyAltNames.$in");
    if (bson_iter_init_find(&at, key, "_id") && is_among(ids, bson_iter_value(&at))) return true;
    if (!bson_iter_init_find(&at, key, "keyAltNames") || !bson_iter_recurse(&at, &name)) return false;
    while (bson_iter_next(&name)) {
        if (is_among(names, bson_iter_value(&name))) return true;
    }
    return false;
}

static bool feed_keys(mongocrypt_ctx_t *ctx, bson_t *filter)
{
    bson_t key;
    for (keys.at = 0; next(&keys, &key);) {
        if (matches(&key, filter) && !feed(ctx, bson_get_data(&key), key.len)) return false;
    }
    return true;
}

/* Answers one question of the library; false where it refuses. */
static bool answer(mongocrypt_ctx_t *ctx, long number, mongocrypt_ctx_state_t state, bson_t *reply)
{
    mongocrypt_binary_t *asked = mongocrypt_binary_new();
    bson_t filter;
    bool well = mongocrypt_ctx_mongo_op(ctx, asked);
    if (well) {
        well = bson_init_static(&filter, mongocrypt_binary_data(asked), mongocrypt_binary_len(asked));
        if (!well) fail("a question that is no BSON");
        if (state == MONGOCRYPT_CTX_NEED_MONGO_COLLINFO) {
            write_ask(number, "collinfo", asked);
            well = feed_infos(ctx, &filter);
        } else if (state == MONGOCRYPT_CTX_NEED_MONGO_KEYS) {
            write_ask(number, "keys", asked);
            well = feed_keys(ctx, &filter);
        } else {
            write_ask(number, "markings", asked);
            if (!reply) fail("no reply for this command");
            well = feed(ctx, bson_get_data(reply), reply->len);
        }
    }
    mongocrypt_binary_destroy(asked);
    return well && mongocrypt_ctx_mongo_done(ctx);
}

/* Runs the states of a context to its end, and writes what comes out; false, with a message, where it refuses. */
static bool finish(mongocrypt_ctx_t *ctx, long number, bson_t *reply, FILE *out, char *message, size_t room)
{
    bool well = true;
    while (well) {
        mongocrypt_ctx_state_t state = mongocrypt_ctx_state(ctx);
        if (state == MONGOCRYPT_CTX_READY || state == MONGOCRYPT_CTX_ERROR) break;
        if (state == MONGOCRYPT_CTX_NEED_KMS) well = mongocrypt_ctx_kms_done(ctx);
        else if (state <= MONGOCRYPT_CTX_NEED_MONGO_KEYS) well = answer(ctx, number, state, reply);
        else fail("a state that a local key service doesn't have");
    }
    mongocrypt_binary_t *result = mongocrypt_binary_new();
    well = well && mongocrypt_ctx_finalize(ctx, result);
    if (!well) tell(ctx, message, room);
    else if (out) fwrite(mongocrypt_binary_data(result), 1, mongocrypt_binary_len(result), out);
    mongocrypt_binary_destroy(result);
    return well;
}

/* One command to be sealed for a database, or one document to be opened where there is none. */
static bool one(const char *db, bson_t *document, long number, bson_t *reply, FILE *out, char *message, size_t room)
{
    mongocrypt_ctx_t *ctx = mongocrypt_ctx_new(library);
    mongocrypt_binary_t *bin = mongocrypt_binary_new_from_data((uint8_t *) bson_get_data(document), document->len);
    bool well = db ? mongocrypt_ctx_encrypt_init(ctx, db, -1, bin) : mongocrypt_ctx_decrypt_init(ctx, bin);
    if (!well) tell(ctx, message, room);
    else well = finish(ctx, number, reply, out, message, room);
    mongocrypt_binary_destroy(bin);
    mongocrypt_ctx_destroy(ctx);
    return well;
}

static int stream(const char *db)
{
    bytes_t input = bytes_of(stdin);
    bson_t document, reply;
    char message[1024];
    begin_library();
    for (long number = 1; next(&input, &document); number++) {
        bool has_reply = db && next(&replies, &reply);
        if (starts_fresh && number > 1) {
            mongocrypt_destroy(library);
            begin_library();
        }
        if (one(db, &document, number, has_reply ? &reply : NULL, stdout, message, sizeof message)) continue;
        fprintf(stderr, "refused %ld: %s\n", number, message);
        if (!goes_on) return 1;
    }
    return 0;
}

static int keygen(int count, char **names)
{
    char message[1024];
    begin_library();
    mongocrypt_ctx_t *ctx = mongocrypt_ctx_new(library);
    bool well = mongocrypt_ctx_setopt_masterkey_local(ctx);
    for (int i = 0; i < count; i++) {
        bson_t name = BSON_INITIALIZER;
        BSON_APPEND_UTF8(&name, "keyAltName", names[i]);
        mongocrypt_binary_t *bin = mongocrypt_binary_new_from_data((uint8_t *) bson_get_data(&name), name.len);
        well = well && mongocrypt_ctx_setopt_key_alt_name(ctx, bin);
        mongocrypt_binary_destroy(bin);
    }
    if (well && mongocrypt_ctx_datakey_init(ctx) && finish(ctx, 0, NULL, stdout, message, sizeof message)) return 0;
    tell(ctx, message, sizeof message);
    fprintf(stderr, "refused 0: %s\n", message);
    return 1;
}

static void read_flags(int count, char **words)
{
    for (int i = 0; i < count; i++) {
        if (!strcmp(words[i], "--on")) goes_on = true;
        else if (!strcmp(words[i], "--fresh")) starts_fresh = true;
        else if (!strcmp(words[i], "--asks") && i + 1 < count) asks = fopen(words[++i], "w");
        else fail("an unknown word");
    }
}

int main(int argc, char **argv)
{
    if (argc >= 7 && !strcmp(argv[1], "encrypt")) {
        keys = file_of(argv[3]), schemas = file_of(argv[4]), master = file_of(argv[5]), replies = file_of(argv[6]);
        read_flags(argc - 7, argv + 7);
        return stream(argv[2]);
    }
    if (argc >= 4 && !strcmp(argv[1], "decrypt")) {
        keys = file_of(argv[2]), master = file_of(argv[3]);
        read_flags(argc - 4, argv + 4);
        return stream(NULL);
    }
    if (argc >= 3 && !strcmp(argv[1], "keygen")) {
        master = file_of(argv[2]);
        return keygen(argc - 3, argv + 3);
    }
    fail("the words are none of its forms");
}
