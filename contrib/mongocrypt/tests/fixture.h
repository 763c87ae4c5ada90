/* fixture.h: keys, a schema of people and commands that show a protected value, for the tests one way at a time. */
#ifndef FIXTURE_H
#define FIXTURE_H
#include "harness.h"

static uint8_t ids[2][16];
static bson_t *keys[2], *schema, *info, *map, *insert, *find;
static server both, rules, nothing;
static char said[1100];

static void begin_all(void) {
    mongocrypt_t *crypt = handle_of(1, NULL);
    keys[0] = new_key(crypt, "first", NULL, ids[0]), keys[1] = new_key(crypt, "second", NULL, ids[1]);
    schema = new_schema(ids[0], ids[1]), info = info_of("people", schema);
    map = BCON_NEW("hr.people", BCON_DOCUMENT(schema));
    insert = BCON_NEW("insert", "people", "documents", "[", "{", "ssn", SECRET, "pay", SECRET, "}", "]", "$db", "hr");
    find = BCON_NEW("find", "people", "filter", "{", "ssn", SECRET, "}");
    both = (server){info, {keys[0], keys[1]}}, rules = (server){.info = info};
    mongocrypt_destroy(crypt);
}

/* The command's context comes to a refusal with these words, that shows no value and isn't cut by a driver. */
static void want_refusal(mongocrypt_ctx_t *ctx, const server *from, const char *first, const char *second) {
    bson_t *out = ended(ctx, from, said);
    bool is = !out && strstr(said, first) && strstr(said, second) && !strstr(said, SECRET) && strlen(said) < 504;
    if (!is) printf("said: %s\n", said);
    want(is, first);
}

/* Frees what begin_all made. */
static int end_all(void) {
    bson_destroy(keys[0]), bson_destroy(keys[1]), bson_destroy(schema), bson_destroy(info), bson_destroy(map);
    bson_destroy(insert), bson_destroy(find);
    return 0;
}

#endif
