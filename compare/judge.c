/* libbson's documents and verdicts, for compare/types:
 *
 *     judge write                      > a document of each of the 21 types, each behind its length in four bytes
 *     judge show  < framed documents   > each in canonical Extended JSON, a line for each
 *     judge       < framed documents   > a line for each
 *
 * A line of the last has three words and a message: `right` or `wrong` as bson_validate with BSON_VALIDATE_UTF8 says,
 * as whether bson_as_canonical_extended_json shows the document, and as whether libmongocrypt opens it, which has
 * nothing to open, with the library's message where it doesn't. */
#include <bson/bson.h>
#include <mongocrypt.h>
#include <stdio.h>
#include <stdlib.h>
#include <string.h>

static void frame(bson_t *document)
{
    uint32_t length = document->len;
    fwrite(&length, 4, 1, stdout);
    fwrite(bson_get_data(document), 1, length, stdout);
    bson_destroy(document);
    bson_init(document);
}

/* One document of each type, in the order of their bytes: {a: value}. */
static void write_all(void)
{
    bson_t d = BSON_INITIALIZER, inner = BSON_INITIALIZER;
    bson_oid_t oid;
    bson_decimal128_t decimal;
    bson_oid_init_from_string(&oid, "00112233445566778899aabb");
    bson_decimal128_from_string("1.5", &decimal);
    BSON_APPEND_INT32(&inner, "0", 7);
    BSON_APPEND_DOUBLE(&d, "a", 1.5), frame(&d);
    BSON_APPEND_UTF8(&d, "a", "x\xc3\xa9"), frame(&d);
    BSON_APPEND_DOCUMENT(&d, "a", &inner), frame(&d);
    BSON_APPEND_ARRAY(&d, "a", &inner), frame(&d);
    BSON_APPEND_BINARY(&d, "a", BSON_SUBTYPE_BINARY, (const uint8_t *) "bin", 3), frame(&d);
    BSON_APPEND_UNDEFINED(&d, "a"), frame(&d);
    BSON_APPEND_OID(&d, "a", &oid), frame(&d);
    BSON_APPEND_BOOL(&d, "a", true), frame(&d);
    BSON_APPEND_DATE_TIME(&d, "a", -2), frame(&d);
    BSON_APPEND_NULL(&d, "a"), frame(&d);
    BSON_APPEND_REGEX(&d, "a", "x.y", "i"), frame(&d);
    BSON_APPEND_DBPOINTER(&d, "a", "d.c", &oid), frame(&d);
    BSON_APPEND_CODE(&d, "a", "f()"), frame(&d);
    BSON_APPEND_SYMBOL(&d, "a", "sym"), frame(&d);
    BSON_APPEND_CODE_WITH_SCOPE(&d, "a", "f()", &inner), frame(&d);
    BSON_APPEND_INT32(&d, "a", -2), frame(&d);
    BSON_APPEND_TIMESTAMP(&d, "a", 5, 6), frame(&d);
    BSON_APPEND_INT64(&d, "a", -2), frame(&d);
    BSON_APPEND_DECIMAL128(&d, "a", &decimal), frame(&d);
    BSON_APPEND_MAXKEY(&d, "a"), frame(&d);
    BSON_APPEND_MINKEY(&d, "a"), frame(&d);
}

static mongocrypt_t *begin_library(void)
{
    uint8_t any[96] = {0};
    mongocrypt_t *library = mongocrypt_new();
    mongocrypt_binary_t *bin = mongocrypt_binary_new_from_data(any, sizeof any);
    if (!mongocrypt_setopt_kms_provider_local(library, bin) || !mongocrypt_init(library)) exit(2);
    mongocrypt_binary_destroy(bin);
    return library;
}

/* Whether the library takes a document that has nothing to open; the message says why where it doesn't. */
static bool opens(mongocrypt_t *library, uint8_t *data, uint32_t length, char *message, size_t room)
{
    mongocrypt_ctx_t *ctx = mongocrypt_ctx_new(library);
    mongocrypt_binary_t *bin = mongocrypt_binary_new_from_data(data, length), *result = mongocrypt_binary_new();
    mongocrypt_status_t *status = mongocrypt_status_new();
    bool well = mongocrypt_ctx_decrypt_init(ctx, bin) && mongocrypt_ctx_finalize(ctx, result);
    mongocrypt_ctx_status(ctx, status);
    snprintf(message, room, "%s", well ? "" : mongocrypt_status_message(status, NULL));
    mongocrypt_status_destroy(status);
    mongocrypt_binary_destroy(result);
    mongocrypt_binary_destroy(bin);
    mongocrypt_ctx_destroy(ctx);
    return well;
}

static const char *word(bool right)
{
    return right ? "right" : "wrong";
}

int main(int argc, char **argv)
{
    if (argc > 1 && !strcmp(argv[1], "write")) {
        write_all();
        return 0;
    }
    mongocrypt_t *library = begin_library();
    bool shows = argc > 1 && !strcmp(argv[1], "show");
    uint32_t length;
    while (fread(&length, 4, 1, stdin) == 1) {
        uint8_t *data = malloc(length + 1);
        char message[1024];
        bson_t document;
        if (fread(data, 1, length, stdin) != length) return 2;
        bool there = bson_init_static(&document, data, length);
        bool plain = there && bson_validate(&document, BSON_VALIDATE_UTF8, NULL);
        char *text = there ? bson_as_canonical_extended_json(&document, NULL) : NULL;
        if (shows) {
            puts(text ? text : "");
        } else {
            printf("%s %s ", word(plain), word(text));
            fflush(stdout);  // the library ends the process where a document has no byte
            bool opened = opens(library, data, length, message, sizeof message);
            printf("%s %s\n", word(opened), message);
        }
        bson_free(text);
        free(data);
    }
    return 0;
}
