/* A client without encryption: libmongoc through the proxy. Use: c_client HOST:PORT OPTIONS */
#include <mongoc/mongoc.h>
#include <stdio.h>
#include <stdlib.h>
#include <string.h>

static bson_error_t error;

static void want(bool is, const char *what) {
    if (!is) {
        printf("%s isn't so: %s\n", what, error.message);
        exit(1);
    }
}

/* How many documents a filter finds, each with such a salary; -1 where it is refused. */
static int found(mongoc_collection_t *people, const bson_t *filter, const char *salary) {
    mongoc_cursor_t *cursor = mongoc_collection_find_with_opts(people, filter, NULL, NULL);
    const bson_t *document;
    bson_iter_t at;
    int count = 0;
    while (mongoc_cursor_next(cursor, &document)) {
        want(bson_iter_init_find(&at, document, "salary") && BSON_ITER_HOLDS_UTF8(&at) &&
                 strncmp(bson_iter_utf8(&at, NULL), salary, strlen(salary)) == 0, "a salary that was found");
        count++;
    }
    if (mongoc_cursor_error(cursor, &error)) count = -1;
    mongoc_cursor_destroy(cursor);
    return count;
}

static void refused(bool is, const char *reason, const char *field) {
    want(is && error.code == 8000 && strstr(error.message, reason) && strstr(error.message, field) &&
             !strstr(error.message, "SEKRET"), "a refusal");
}

static void write_and_read(mongoc_collection_t *people) {
    const bson_t *documents[7];
    char salary[30];
    for (int i = 0; i < 7; i++) {
        snprintf(salary, sizeof salary, "SEKRET-%d", i);
        documents[i] = BCON_NEW("_id", BCON_INT32(i), "ssn", "SEKRET-1", "salary", BCON_UTF8(salary), "n",
                                BCON_INT32(i));
    }
    want(mongoc_collection_insert_many(people, documents, 7, NULL, NULL, &error), "seven inserts");
    want(found(people, BCON_NEW("ssn", "SEKRET-1"), "SEKRET-") == 7, "what was found");
    want(mongoc_collection_update_one(people, BCON_NEW("ssn", "SEKRET-1", "n", BCON_INT32(3)),
                                      BCON_NEW("$set", "{", "salary", "SEKRET-new", "}"), NULL, NULL, &error),
         "an update");
    want(found(people, BCON_NEW("_id", BCON_INT32(3)), "SEKRET-new") == 1, "what was updated");
    mongoc_bulk_operation_t *bulk = mongoc_collection_create_bulk_operation_with_opts(people, NULL);
    mongoc_bulk_operation_insert(bulk, BCON_NEW("_id", BCON_INT32(20), "ssn", "SEKRET-2"));
    mongoc_bulk_operation_update_one(bulk, BCON_NEW("_id", BCON_INT32(20)),
                                     BCON_NEW("$set", "{", "salary", "SEKRET-b", "}"), false);
    mongoc_bulk_operation_remove_one(bulk, BCON_NEW("ssn", "SEKRET-1", "n", BCON_INT32(6)));
    want(mongoc_bulk_operation_execute(bulk, NULL, &error) != 0, "a bulk write");
    mongoc_bulk_operation_destroy(bulk);
    want(mongoc_collection_update_one(people, BCON_NEW("ssn", "SEKRET-9"),
                                      BCON_NEW("$set", "{", "salary", "SEKRET-u", "}"),
                                      BCON_NEW("upsert", BCON_BOOL(true)), NULL, &error), "an upsert");
    want(found(people, BCON_NEW("ssn", "SEKRET-9"), "SEKRET-u") == 1, "what was upserted");
    want(mongoc_collection_delete_one(people, BCON_NEW("ssn", "SEKRET-2"), NULL, NULL, &error), "a delete");
    want(found(people, BCON_NEW("ssn", "SEKRET-2"), "") == 0, "what was deleted");
}

/* Counts by the command of this name, which is sealed; what counts by aggregate is refused. */
static void count(mongoc_client_t *client, mongoc_collection_t *people) {
    bson_t reply;
    bson_iter_t at;
    want(mongoc_client_command_simple(client, "hr", BCON_NEW("count", "people", "query", "{", "ssn", "SEKRET-1", "}"),
                                      NULL, &reply, &error), "a count");
    want(bson_iter_init_find(&at, &reply, "n") && bson_iter_as_int64(&at) == 6, "what was counted");
    want(mongoc_collection_estimated_document_count(people, NULL, NULL, NULL, &error) == 7, "an estimate");
    refused(mongoc_collection_count_documents(people, BCON_NEW("ssn", "SEKRET-1"), NULL, NULL, NULL, &error) == -1,
            "NotACommand", "aggregate");
}

static void use_a_transaction(mongoc_client_t *client, mongoc_collection_t *people) {
    mongoc_client_session_t *session = mongoc_client_start_session(client, NULL, &error);
    bson_t options = BSON_INITIALIZER, reply;
    want(session && mongoc_client_session_append(session, &options, &error), "a session");
    want(mongoc_client_session_start_transaction(session, NULL, &error), "a transaction");
    want(mongoc_collection_insert_one(people, BCON_NEW("_id", BCON_INT32(30), "salary", "SEKRET-t"), &options, NULL,
                                      &error), "an insert within it");
    want(mongoc_client_session_commit_transaction(session, &reply, &error), "its end");
    mongoc_client_session_destroy(session);
    want(found(people, BCON_NEW("_id", BCON_INT32(30)), "SEKRET-t") == 1, "what was committed");
}

int main(int count_of_words, char **words) {
    char uri[200];
    snprintf(uri, sizeof uri, "mongodb://%s/?%s", words[1], count_of_words > 2 ? words[2] : "");
    mongoc_init();
    mongoc_client_t *client = mongoc_client_new(uri);
    mongoc_client_set_error_api(client, 2);
    mongoc_collection_t *people = mongoc_client_get_collection(client, "hr", "people");
    mongoc_collection_t *other = mongoc_client_get_collection(client, "other", "people");
    write_and_read(people);
    count(client, people);
    if (strstr(uri, "replicaSet")) use_a_transaction(client, people);
    refused(found(people, BCON_NEW("ssn", "{", "$gt", "SEKRET", "}"), "") == -1, "OperatorOnProtected",
            "filter.ssn.$gt");
    refused(!mongoc_collection_insert_one(people, BCON_NEW("ssn", BCON_NULL, "salary", "SEKRET"), NULL, NULL, &error),
            "TypeNotAllowed", "documents.0.ssn");
    refused(!mongoc_collection_insert_one(other, BCON_NEW("ssn", "SEKRET"), NULL, NULL, &error), "Unsupported",
            "other");
    return 0;
}
