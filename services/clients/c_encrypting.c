/* A client with encryption of its own: libmongoc, which asks a service what to seal.
 * Use: c_encrypting HOST:PORT SERVICE SCHEMAS COUNTS
 *
 * SERVICE is the URI of one, or spawn:PORT:FOLDER to start mongocryptd there. SCHEMAS is a file with a schema map, or -
 * for the server's own schemas. COUNTS is what counting comes to: refused, or counted. */
#include <mongoc/mongoc.h>
#include <stdio.h>
#include <stdlib.h>
#include <string.h>

static bson_error_t error;

static void want(bool is, const char *what) {
    if (!is) {
        printf("%s isn't so: %s\n", what, error.message);
        exit(1);
    }
}

/* How many documents a filter finds, each with such a salary; -1 where it is refused. */
static int found(mongoc_collection_t *people, const bson_t *filter, const char *salary) {
    mongoc_cursor_t *cursor = mongoc_collection_find_with_opts(people, filter, NULL, NULL);
    const bson_t *document;
    bson_iter_t at;
    int count = 0;
    while (mongoc_cursor_next(cursor, &document)) {
        want(bson_iter_init_find(&at, document, "salary") && BSON_ITER_HOLDS_UTF8(&at) &&
                 strncmp(bson_iter_utf8(&at, NULL), salary, strlen(salary)) == 0, "a salary that was found");
        count++;
    }
    if (mongoc_cursor_error(cursor, &error)) count = -1;
    mongoc_cursor_destroy(cursor);
    return count;
}

/* How many documents a filter finds, by the command count. */
static int64_t counted(mongoc_collection_t *people, const bson_t *filter) {
    bson_iter_t at;
    bson_t reply;
    want(mongoc_collection_command_simple(people, BCON_NEW("count", "people", "query", BCON_DOCUMENT(filter)), NULL,
                                          &reply, &error) &&
             bson_iter_init_find(&at, &reply, "n"),
         "a count by a command");
    return bson_iter_as_int64(&at);
}

static void refused(bool is, const char *reason, const char *field) {
    want(is && strstr(error.message, reason) && strstr(error.message, field) && !strstr(error.message, "SEKRET"),
         "a refusal");
}

static bson_t *service_of(char *word) {
    char uri[100], folder[300], port[20], pid[400], log[400];
    if (strncmp(word, "spawn:", 6) != 0)
        return BCON_NEW("mongocryptdURI", BCON_UTF8(word), "mongocryptdBypassSpawn", BCON_BOOL(true));
    want(sscanf(word, "spawn:%10[0-9]:%299s", port, folder) == 2, "a port and a folder");
    snprintf(uri, sizeof uri, "mongodb://localhost:%s", port);
    snprintf(pid, sizeof pid, "--pidfilepath=%s/pid", folder);
    snprintf(log, sizeof log, "--logpath=%s/log", folder);
    return BCON_NEW("mongocryptdURI", BCON_UTF8(uri), "mongocryptdSpawnArgs", "[", "--idleShutdownTimeoutSecs=60",
                    "--port", BCON_UTF8(port), BCON_UTF8(pid), BCON_UTF8(log), "]");
}

static void enable(mongoc_client_t *client, char *service, const char *schemas) {
    mongoc_auto_encryption_opts_t *options = mongoc_auto_encryption_opts_new();
    uint8_t master[96], map[10000];
    for (int i = 0; i < 96; i++) master[i] = (uint8_t)i;
    mongoc_auto_encryption_opts_set_keyvault_namespace(options, "encryption", "__keyVault");
    mongoc_auto_encryption_opts_set_kms_providers(options, BCON_NEW("local", "{", "key", BCON_BIN(0, master, 96), "}"));
    mongoc_auto_encryption_opts_set_extra(options, service_of(service));
    if (strcmp(schemas, "-") != 0) {
        FILE *file = fopen(schemas, "rb");
        size_t length = file ? fread(map, 1, sizeof map, file) : 0;
        bson_t *read = bson_new_from_data(map, length);
        want(read != NULL, "a schema map");
        mongoc_auto_encryption_opts_set_schema_map(options, read);
    }
    want(mongoc_client_enable_auto_encryption(client, options, &error), "automatic encryption");
}

static void write_and_read(mongoc_collection_t *people) {
    const bson_t *documents[7];
    char salary[30];
    for (int i = 0; i < 7; i++) {
        snprintf(salary, sizeof salary, "SEKRET-%d", i);
        documents[i] = BCON_NEW("_id", BCON_INT32(i), "ssn", "SEKRET-1", "salary", BCON_UTF8(salary), "n",
                                BCON_INT32(i));
    }
    want(mongoc_collection_insert_many(people, documents, 7, NULL, NULL, &error), "seven inserts");
    want(found(people, BCON_NEW("ssn", "SEKRET-1"), "SEKRET-") == 7, "what was found");
    want(mongoc_collection_update_one(people, BCON_NEW("ssn", "SEKRET-1", "n", BCON_INT32(3)),
                                      BCON_NEW("$set", "{", "salary", "SEKRET-new", "}"), NULL, NULL, &error),
         "an update");
    want(found(people, BCON_NEW("_id", BCON_INT32(3)), "SEKRET-new") == 1, "what was updated");
    mongoc_bulk_operation_t *bulk = mongoc_collection_create_bulk_operation_with_opts(people, NULL);
    mongoc_bulk_operation_insert(bulk, BCON_NEW("_id", BCON_INT32(20), "ssn", "SEKRET-2"));
    mongoc_bulk_operation_update_one(bulk, BCON_NEW("_id", BCON_INT32(20)),
                                     BCON_NEW("$set", "{", "salary", "SEKRET-b", "}"), false);
    mongoc_bulk_operation_remove_one(bulk, BCON_NEW("ssn", "SEKRET-1", "n", BCON_INT32(6)));
    want(mongoc_bulk_operation_execute(bulk, NULL, &error) != 0, "a bulk write");
    want(found(people, BCON_NEW("ssn", "SEKRET-2"), "SEKRET-b") == 1, "what a bulk write wrote");
    mongoc_bulk_operation_destroy(bulk);
    want(mongoc_collection_delete_one(people, BCON_NEW("ssn", "SEKRET-2"), NULL, NULL, &error), "a delete");
    want(found(people, BCON_NEW("ssn", "SEKRET-2"), "") == 0, "what was deleted");
    want(counted(people, BCON_NEW("ssn", "SEKRET-1")) == 6, "what a command counted");
}

int main(int words, char **word) {
    char uri[200];
    want(words == 5, "the number of words");
    snprintf(uri, sizeof uri, "mongodb://%s/", word[1]);
    mongoc_init();
    mongoc_client_t *client = mongoc_client_new(uri);
    mongoc_client_set_error_api(client, 2);
    enable(client, word[2], word[3]);
    mongoc_collection_t *people = mongoc_client_get_collection(client, "hr", "people");
    mongoc_collection_t *free_ = mongoc_client_get_collection(client, "hr", "free");
    write_and_read(people);
    refused(found(people, BCON_NEW("ssn", "{", "$gt", "SEKRET", "}"), "") == -1, "OperatorOnProtected",
            "filter.ssn.$gt");
    refused(!mongoc_collection_insert_one(people, BCON_NEW("ssn", BCON_NULL, "salary", "SEKRET"), NULL, NULL, &error),
            "TypeNotAllowed", "documents.0.ssn");
    want(mongoc_collection_insert_one(free_, BCON_NEW("a", "b"), NULL, NULL, &error), "an insert without rules");
    int64_t count = mongoc_collection_count_documents(people, BCON_NEW("ssn", "SEKRET-1"), NULL, NULL, NULL, &error);
    if (strcmp(word[4], "refused") == 0) refused(count == -1, "NotACommand", "aggregate");
    else want(count == 6, "a count");
    mongoc_client_destroy(client);
    return 0;
}
