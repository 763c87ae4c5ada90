/* inside.h: what the files of this folder share. Together they are libmongocrypt's interface (mongocrypt.h) over fle.h.
 *
 * They copy bytes, order the states of a driver, keep infos and keys for a minute, and phrase messages. No line reads a
 * command to decide about it: which collection it is for, whether it passes, is sealed or refused, and every payload,
 * are libfle's. A document that was refused is read for the way to the place of the refusal, and goes nowhere. */
#pragma once
#define _GNU_SOURCE
#include <errno.h>
#include <mongocrypt.h>
#include <pthread.h>
#include <stdarg.h>
#include <stdio.h>
#include <stdlib.h>
#include <string.h>
#include <sys/random.h>
#include <time.h>

#include "fle.h"

/* What fle_start is handed: commands beyond insert, update, delete and find are taken, and in none does a value go out
 * where none belongs. */
enum { FLAGS = FLE_COMMANDS_MORE };

enum { TEXT = 2, DOCUMENT = 3, ARRAY = 4, BINARY = 5, ID = 16, MATERIAL = 96 }; /* types of BSON, and lengths */

typedef struct {
    const uint8_t *at;
    size_t size;
} view;
#define NONE ((view){NULL, 0})

/* Bytes that grow, and are wiped at their end. `failed` stays true once memory was wanting. */
typedef struct {
    uint8_t *at;
    size_t size, room;
    bool failed;
} bytes;

typedef struct {
    uint8_t type;
    const char *name;
    view value;
} element;

struct _mongocrypt_status_t {
    mongocrypt_status_type_t type;
    uint32_t code;
    char message[1024];
};

/* One engine for all threads. The lock is of the engine and of what stands behind it up to `forgotten`; it is held for
 * one call of a driver, within which no function of the driver runs. All below is set before mongocrypt_init ends. */
struct _mongocrypt_t {
    pthread_mutex_t lock;
    fle_slot engine;
    long infos_since, keys_since; /* when the first of those that are kept came; 0 where none did */
    uint64_t forgotten;           /* how often keys were */
    bool ready, bypass;
    bytes master, schemas;
    mongocrypt_status_t status;
};

typedef enum { NOTHING, SEAL, OPEN, SEAL_VALUE, MAKE_KEY, REWRAP } work;

struct _mongocrypt_ctx_t {
    mongocrypt_t *crypt;
    work work;
    mongocrypt_ctx_state_t state;
    bytes db, input, out;      /* what libfle is handed, and what finalize shows */
    bytes asked, fed;          /* the question to the driver, and the documents that came */
    bytes id, names, material; /* options: of a key; its names have their 00, and stand one behind the other */
    view key;                  /* of SEAL_VALUE: the id or the name */
    bool algorithm, random, local;
    bool asked_keys; /* when `forgotten` was the handle's */
    uint64_t forgotten;
    bool refused; /* by an init: finalize tells `late` */
    mongocrypt_status_t status, late;
};

/* bytes.c */
bool reserve(bytes *all, size_t more), copy(bytes *all, view from);
void put(bytes *all, const void *from, size_t size), clear(bytes *all);
view seen(const bytes *all);
uint32_t number(const uint8_t *at);
bool is_document(view all), holds_document(const element *one), is_same(view one, view other);
bool next(view document, size_t *at, element *found), is_end(view document, size_t at);
bool find(view document, const char *name, element *found);
const char *text(const element *one);
void put_element(bytes *all, uint8_t type, const char *name, view value);
void put_text(bytes *all, const char *name, const char *value), end(bytes *all, size_t start);
size_t begin(bytes *all, uint8_t type, const char *name);

/* told.c; fail, no_memory, explain and failed answer false. */
view of(const mongocrypt_binary_t *binary);
bool show(mongocrypt_binary_t *binary, const bytes *all);
bool told(const mongocrypt_status_t *from, mongocrypt_status_t *to);
bool fail(mongocrypt_status_t *status, const char *format, ...) __attribute__((format(printf, 2, 3)));
bool no_memory(mongocrypt_status_t *status);
bool explain(mongocrypt_status_t *status, fle_answer answer, const char *what, view document);
bool failed(mongocrypt_ctx_t *ctx), copy_for(mongocrypt_ctx_t *ctx, bytes *to, view from);
#define FAIL(ctx, ...) (fail(&(ctx)->status, __VA_ARGS__) || failed(ctx))

/* handle.c, options.c; work.c and the last three of handle.c want the lock */
bool can_set(mongocrypt_t *crypt), may_set(mongocrypt_ctx_t *ctx);
bool freshen(mongocrypt_t *crypt, mongocrypt_status_t *status);
void keep(long *since), forget_keys(mongocrypt_t *crypt);
bool proceed(mongocrypt_ctx_t *ctx), rewrap(mongocrypt_ctx_t *ctx);
bool proceed_with_info(mongocrypt_ctx_t *ctx), proceed_with_keys(mongocrypt_ctx_t *ctx);
