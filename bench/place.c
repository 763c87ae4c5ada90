/* Whole contexts by mongocrypt.h, of whichever libmongocrypt.so.0 the loader finds, for bench/place:
 *
 *     place times WHAT FIELDS TURNS CALLS    ns of processor time a context: the least and the median of so many turns,
 *                                            each of so many contexts
 *     place count WHAT FIELDS CALLS          runs so many contexts, for callgrind
 *     place threads THREADS CALLS KEYS       each thread seals and opens so often, by one handle whose vault has so many
 *                                            keys, each field under its own: contexts a second, and the most memory, KB
 *
 * WHAT is deterministic or random, which seal an insert of a document with so many texts of 11 bytes, opened, which
 * opens the sealed insert, or sealed-free and opened-free, of ten texts without rules beside a rule. A library that asks
 * for markings is handed the right reply; what a marking service takes isn't in a figure. */
#include "../contrib/mongocrypt/tests/harness.h"

#define TEXT "123-45-6789"

static mongocrypt_t *handle;
static bson_t *keys[1000];
static uint8_t ids[1000][16];
static const char *algorithm = MONGOCRYPT_ALGORITHM_DETERMINISTIC_STR;
static long calls;

/* A context's command or document, and what it is answered with. */
typedef struct {
    bson_t *document, *reply;
    int first, count;
    bool opens;
} job;

/* A marking of a text. */
static void put_marking(bson_t *to, const char *name, const uint8_t *id) {
    int32_t number = strcmp(algorithm, MONGOCRYPT_ALGORITHM_RANDOM_STR) ? 1 : 2;
    bson_t *marking = BCON_NEW("v", TEXT, "a", BCON_INT32(number), "ki", BCON_BIN(BSON_SUBTYPE_UUID, id, 16));
    uint8_t bytes[256] = {0};
    memcpy(bytes + 1, bson_get_data(marking), marking->len);
    BSON_APPEND_BINARY(to, name, BSON_SUBTYPE_ENCRYPTED, bytes, marking->len + 1);
    bson_destroy(marking);
}

/* An insert of these fields; of none it has ten that no rule is about. */
static bson_t *insert_of(int first, int count, bool marked) {
    bson_t *command = BCON_NEW("insert", "c"), list, document;
    char name[16];
    BSON_APPEND_ARRAY_BEGIN(command, "documents", &list), BSON_APPEND_DOCUMENT_BEGIN(&list, "0", &document);
    for (int i = first; i < first + (count ? count : 10); i++) {
        snprintf(name, sizeof name, "%c%d", count ? 'f' : 'g', i);
        if (marked && count)
            put_marking(&document, name, ids[i]);
        else
            BSON_APPEND_UTF8(&document, name, TEXT);
    }
    bson_append_document_end(&list, &document), bson_append_array_end(command, &list);
    return command;
}

static job sealing_job(int first, int count) {
    bson_t *marked = insert_of(first, count, true);
    bson_t *reply = BCON_NEW("hasEncryptionPlaceholders", BCON_BOOL(count > 0), "schemaRequiresEncryption", BCON_BOOL(true),
                             "result", BCON_DOCUMENT(marked), "ok", BCON_DOUBLE(1));
    bson_destroy(marked);
    return (job){insert_of(first, count, false), reply, first, count, false};
}

/* A handle whose schema map has so many fields, under one key or each under its own. */
static void begin(int fields, int many) {
    bson_t *rules = bson_new();
    char name[16];
    handle = handle_of(0, NULL);
    for (int i = 0; i < many; i++) keys[i] = new_key(handle, NULL, NULL, ids[i]);
    mongocrypt_destroy(handle);
    for (int i = 0; i < fields; i++) {
        if (many == 1) memcpy(ids[i], ids[0], 16);
        snprintf(name, sizeof name, "f%d", i);
        bson_t *rule = BCON_NEW("encrypt", "{", "keyId", "[", BCON_BIN(BSON_SUBTYPE_UUID, ids[i], 16), "]", "bsonType",
                                "string", "algorithm", BCON_UTF8(algorithm), "}");
        BSON_APPEND_DOCUMENT(rules, name, rule), bson_destroy(rule);
    }
    bson_t *map = BCON_NEW("hr.c", "{", "bsonType", "object", "properties", BCON_DOCUMENT(rules), "}");
    handle = handle_of(0, map);
    bson_destroy(map), bson_destroy(rules);
}

/* Runs a context to its end; the document is kept where it is wanted. */
static void run(const job *one, bson_t **kept) {
    mongocrypt_ctx_t *ctx = one->opens ? opening(handle, one->document) : sealing(handle, one->document);
    mongocrypt_binary_t *out = mongocrypt_binary_new();
    int state, turns = 0;
    bool is = true;
    while ((state = mongocrypt_ctx_state(ctx)) != MONGOCRYPT_CTX_DONE) {
        if (!is || state == MONGOCRYPT_CTX_ERROR || turns++ == 6) want(false, message_of(ctx));
        if (state == MONGOCRYPT_CTX_READY) {
            is = mongocrypt_ctx_finalize(ctx, out);
            continue;
        }
        is = mongocrypt_ctx_mongo_op(ctx, out);
        if (state == MONGOCRYPT_CTX_NEED_MONGO_MARKINGS)
            WITH(is, one->reply, mongocrypt_ctx_mongo_feed(ctx, handed));
        for (int i = one->first; state == KEYS && is && i < one->first + one->count && keys[i]; i++)
            WITH(is, keys[i], mongocrypt_ctx_mongo_feed(ctx, handed));
        is = is && mongocrypt_ctx_mongo_done(ctx);
    }
    if (kept) *kept = bson_new_from_data(mongocrypt_binary_data(out), mongocrypt_binary_len(out));
    mongocrypt_binary_destroy(out), mongocrypt_ctx_destroy(ctx);
}

/* The job that opens what another seals. */
static job opening_job(const job *sealing) {
    job one = {NULL, NULL, sealing->first, sealing->count, true};
    run(sealing, &one.document);
    return one;
}

static job job_of(const char *what, int fields) {
    bool is_free = strstr(what, "-free") != NULL;
    if (!strcmp(what, "random")) algorithm = MONGOCRYPT_ALGORITHM_RANDOM_STR;
    begin(fields, 1);
    job one = sealing_job(0, is_free ? 0 : fields);
    run(&one, NULL);
    return strncmp(what, "opened", 6) ? one : opening_job(&one);
}

static double now(clockid_t clock) {
    struct timespec time;
    clock_gettime(clock, &time);
    return 1e9 * (double)time.tv_sec + (double)time.tv_nsec;
}

static int in_order(const void *one, const void *other) {
    double a = *(const double *)one, b = *(const double *)other;
    return (a > b) - (a < b);
}

static void times(const job *one, int turns) {
    double *spent = calloc((size_t)turns, sizeof *spent);
    for (int i = 0; i < turns; i++) {
        double from = now(CLOCK_PROCESS_CPUTIME_ID);
        for (long j = 0; j < calls; j++) run(one, NULL);
        spent[i] = (now(CLOCK_PROCESS_CPUTIME_ID) - from) / (double)calls;
    }
    qsort(spent, (size_t)turns, sizeof *spent, in_order);
    printf("%.0f %.0f\n", spent[0], spent[turns / 2]);
    free(spent);
}

/* Seals and opens a field of its own. */
static void *threaded(void *field) {
    job seals = sealing_job((int)(intptr_t)field, 1), opens = opening_job(&seals);
    for (long i = 0; i < calls; i++) run(&seals, NULL), run(&opens, NULL);
    bson_destroy(seals.document), bson_destroy(seals.reply), bson_destroy(opens.document);
    return NULL;
}

/* The most memory of the process, in KB; getrusage's counts what it was before exec, too. */
static long most_kb(void) {
    FILE *status = fopen("/proc/self/status", "r");
    char line[256];
    long most = 0;
    while (status && fgets(line, sizeof line, status)) sscanf(line, "VmHWM: %ld", &most);
    if (status) fclose(status);
    return most;
}

/* The vault is shared: one context asks for all keys, before the threads begin. */
static void threads(int count, int many) {
    begin(many, many);
    job all = sealing_job(0, many);
    run(&all, NULL);
    pthread_t *thread = calloc((size_t)count, sizeof *thread);
    double from = now(CLOCK_MONOTONIC), spent = now(CLOCK_PROCESS_CPUTIME_ID);
    for (int i = 0; i < count; i++)
        want(!pthread_create(&thread[i], NULL, threaded, (void *)(intptr_t)(i % many)), "a thread");
    for (int i = 0; i < count; i++) pthread_join(thread[i], NULL);
    spent = now(CLOCK_PROCESS_CPUTIME_ID) - spent, from = now(CLOCK_MONOTONIC) - from;
    double contexts = 2.0 * count * (double)calls;
    printf("%.0f %.0f %ld\n", contexts * 1e9 / from, spent / contexts, most_kb());
}

int main(int words, char **word) {
    want(words == 5 || words == 6, "five words or six");
    if (!strcmp(word[1], "threads")) {
        calls = atol(word[3]);
        threads(atoi(word[2]), atoi(word[4]));
        return 0;
    }
    calls = atol(word[words - 1]);
    job one = job_of(word[2], atoi(word[3]));
    if (!strcmp(word[1], "times")) times(&one, atoi(word[4]));
    if (!strcmp(word[1], "count"))
        for (long i = 0; i < calls; i++) run(&one, NULL);
    return 0;
}
