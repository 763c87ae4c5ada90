/* memory DB KEYS INFOS MASTER NAME < COMMAND: makes each call over and over, with memory that ends at its first
 * allocation, at its second, and so on, until the call comes through. Before that each answers FLE_MEMORY and writes
 * nothing: fle_open and fle_start leave an empty slot, though an engine was there, the others leave the engine, which
 * answers next as it should. Calls that ask for keys are those of an engine without any; a value is sealed under the
 * key of NAME. Where INFOS is in BSON, engines are also started and told of infos and keys one by one, with a master
 * key and without; the first key has to be the only one that the command needs.
 * Ends with 0, or with a line that says what was otherwise. Linked with --wrap=malloc,--wrap=realloc. */
#include <stdio.h>
#include <stdlib.h>
#include <string.h>

#include "fle.h"

enum { ROOM = 65536 };

typedef struct {
    uint8_t at[ROOM];
    size_t size;
} bytes;

/* Whether allocations are counted, and how many are left before memory ends. */
static bool counted;
static size_t left;

void *__real_malloc(size_t size);
void *__real_realloc(void *at, size_t size);

static bool ends(void) {
    if (!counted) return false;
    if (!left) return true;
    left--;
    return false;
}

void *__wrap_malloc(size_t size) { return ends() ? NULL : __real_malloc(size); }

void *__wrap_realloc(void *at, size_t size) { return ends() ? NULL : __real_realloc(at, size); }

static bytes db, keys, infos, master, command, name, sealed, bare, out;
static uint8_t blocks[ROOM];
static const uint8_t value[] = "\x0c\0\0\0\x10v\0\1\0\0\0"; /* {v: 1} */
static fle_slot slot = FLE_SLOT;
static bool keyless, masterless; /* whether engines have no keys, or no master key */
static bool told;                /* whether engines are started and told; else they are opened */

/* The length of a document, below 64 KB. */
static size_t length_at(const uint8_t *at) { return at[0] | (size_t)at[1] << 8; }

static fle_answer put_info_at(const uint8_t *at) { return fle_put_info(&slot, db.at, db.size, at, length_at(at)); }

static fle_answer put_key_at(const uint8_t *at) { return fle_put_key(&slot, at, length_at(at)); }

/* Puts each document of a file, up to the first that comes to another end. */
static fle_answer put_each(const bytes *file, fle_answer (*put)(const uint8_t *)) {
    fle_answer answer = {0};
    for (size_t at = 0; !answer.status && at < file->size; at += length_at(file->at + at)) answer = put(file->at + at);
    return answer;
}

static fle_answer start(void) { return fle_start(&slot, 0, master.at, masterless ? 0 : master.size); }

static fle_answer tell_engine(void) {
    fle_answer answer = start();
    if (!answer.status) answer = put_each(&infos, put_info_at);
    return answer.status || keyless ? answer : put_each(&keys, put_key_at);
}

static fle_answer open_engine(void) {
    if (told) return tell_engine();
    return fle_open(&slot, 0, db.at, db.size, keys.at, keyless ? 0 : keys.size, infos.at, infos.size, master.at,
                    master.size);
}

static fle_answer put_info(void) { return put_info_at(infos.at); }

static fle_answer put_key(void) { return put_key_at(keys.at); }

/* The collection's name alone, as fle_info_wanted writes it. */
static fle_answer put_bare(void) { return put_info_at(bare.at); }

static fle_answer forget_info(void) {
    const uint8_t *in = bare.at + 4 + 6; /* behind the document's length, and the element's type and name */
    return fle_forget_info(&slot, db.at, db.size, in + 4, length_at(in) - 1);
}

static fle_answer forget_infos(void) { return fle_forget_infos(&slot); }

static fle_answer forget_keys(void) { return fle_forget_keys(&slot); }

static fle_answer seal(void) {
    return fle_seal(&slot, db.at, db.size, command.at, command.size, blocks, sizeof blocks, out.at, ROOM);
}

static fle_answer rewrap(void) {
    return fle_rewrap_key(&slot, master.at, master.size, 1, keys.at, length_at(keys.at), blocks, 16, out.at, ROOM);
}

static fle_answer make_key(void) {
    static const uint8_t names[] = "\x21\0\0\0\x04keyAltNames\0\x0f\0\0\0\x02" "0\0\x03\0\0\0ab\0\0";
    return fle_make_key(&slot, names, sizeof names, 1, blocks, 128, out.at, ROOM);
}

static fle_answer unseal(void) { return fle_unseal(&slot, sealed.at, sealed.size, out.at, ROOM); }

static fle_answer mark(void) {
    return fle_mark(&slot, db.at, db.size, command.at, command.size, out.at, ROOM);
}

static fle_answer ask_info(void) {
    return fle_info_wanted(&slot, db.at, db.size, command.at, command.size, out.at, ROOM);
}

static fle_answer ask_keys(void) {
    return fle_keys_wanted(&slot, db.at, db.size, command.at, command.size, out.at, ROOM);
}

static fle_answer ask_to_open(void) {
    return fle_keys_wanted_open(&slot, sealed.at, sealed.size, out.at, ROOM);
}

static fle_answer ask_for_key(void) {
    return fle_value_keys_wanted(&slot, true, name.at, name.size, out.at, ROOM);
}

static fle_answer seal_value(void) {
    return fle_seal_value(&slot, true, name.at, name.size, true, value, sizeof value, blocks, 16, out.at, ROOM);
}

static void want(bool holds, const char *what, size_t allocations) {
    if (holds) return;
    printf("with %zu allocations: %s\n", allocations, what);
    exit(1);
}

/* Whether nothing was written at `out`, which was filled before. */
static bool is_unwritten(void) {
    for (size_t i = 0; i < ROOM; i++) {
        if (out.at[i] != 0xA5) return false;
    }
    return true;
}

/* A call that has so many allocations; its answer. */
static fle_answer with(fle_answer (*call)(void), size_t allocations) {
    memset(out.at, 0xA5, ROOM);
    counted = true, left = allocations;
    const fle_answer answer = call();
    counted = false;
    return answer;
}

static void want_memory(fle_answer answer, size_t n) {
    want(answer.status == FLE_MEMORY && !answer.reason && !answer.file && !answer.place, "a call answers otherwise", n);
}

/* Opens or starts at a full slot with ever more allocations, until an engine is there. */
static void try_open(fle_answer (*open)(void)) {
    for (size_t n = 0;; n++) {
        want(open_engine().status == FLE_DONE, "an engine with plenty", n);
        const fle_answer answer = with(open, n);
        if (answer.status == FLE_DONE) {
            want(n > 0, "an engine allocates nothing", n);
            return;
        }
        want_memory(answer, n);
        want(unseal().status == FLE_NOT_OPEN, "an engine behind a call that failed", n);
    }
}

/* Whether the command is answered with this status, and with these bytes where some are wanted. */
static void want_sealed(uint32_t status, const bytes *wanted, size_t n) {
    const fle_answer answer = seal();
    want(answer.status == status, "the command is answered otherwise", n);
    if (status != FLE_DONE) return;
    want(answer.length == wanted->size && !memcmp(out.at, wanted->at, wanted->size), "it is sealed otherwise", n);
}

/* Tells an engine something with ever more allocations: until that is done, the command is answered as before. */
static void try_put(fle_answer (*put)(void), uint32_t before, uint32_t after, const bytes *wanted) {
    for (size_t n = 0;; n++) {
        const fle_answer answer = with(put, n);
        if (answer.status == FLE_DONE) {
            want(n > 0, "what is put allocates nothing", n);
            want_sealed(after, wanted, n);
            return;
        }
        want_memory(answer, n);
        want_sealed(before, &sealed, n);
    }
}

/* Forgets something without any memory; behind that the command isn't sealed. */
static void try_forget(fle_answer (*forget)(void), uint32_t after) {
    want(open_engine().status == FLE_DONE, "an engine with plenty", 0);
    want_sealed(FLE_DONE, &sealed, 0);
    want(with(forget, 0).status == FLE_DONE, "what is forgotten allocates", 0);
    want_sealed(after, NULL, 0);
}

/* Makes a call with ever more allocations, each time of a new engine, until it writes these bytes. */
static void try_call(fle_answer (*call)(void), const bytes *wanted) {
    for (size_t n = 0;; n++) {
        want(open_engine().status == FLE_DONE, "an engine with plenty", n);
        fle_answer answer = with(call, n);
        const bool fails = answer.status == FLE_MEMORY;
        want(!fails || is_unwritten(), "bytes for want of memory", n);
        if (fails) answer = call();
        want(answer.status == FLE_DONE && answer.length == wanted->size && !memcmp(out.at, wanted->at, wanted->size),
             "a call answers otherwise", n);
        if (!fails) {
            want(n > 0, "a call allocates nothing", n);
            return;
        }
    }
}

/* What a call writes with plenty of memory, which is some byte. */
static void make(fle_answer (*call)(void), bytes *made) {
    want(open_engine().status == FLE_DONE, "an engine with plenty", 0);
    const fle_answer answer = call();
    want(answer.status == FLE_DONE && answer.length > 0, "a call with plenty", 0);
    made->size = answer.length;
    memcpy(made->at, out.at, made->size);
}

/* The same call with ever more allocations. */
static void try_made(fle_answer (*call)(void)) {
    static bytes made;
    make(call, &made);
    try_call(call, &made);
}

/* The calls that want no master key. */
static void try_unmastered(void) {
    keyless = false;
    try_made(mark), try_made(ask_info);
    keyless = true;
    try_made(ask_keys), try_made(ask_to_open), try_made(ask_for_key);
}

/* Each call of an engine, which stays. */
static void try_calls(void) {
    keyless = false;
    try_call(seal, &sealed), try_call(unseal, &command);
    try_made(seal_value), try_made(rewrap), try_made(make_key);
    try_unmastered();
}

/* Engines that are started and told, which is undone by what is told next, or forgotten. */
static void try_told(void) {
    told = true, keyless = false;
    try_open(start);
    try_put(put_info, FLE_NO_INFO, FLE_REFUSED, NULL);
    try_put(put_key, FLE_REFUSED, FLE_DONE, &sealed);
    try_put(put_bare, FLE_DONE, FLE_DONE, &command);
    try_forget(forget_info, FLE_NO_INFO), try_forget(forget_infos, FLE_NO_INFO);
    try_forget(forget_keys, FLE_REFUSED);
    try_calls();
}

/* The same without a master key, where nothing is sealed or opened. */
static void try_masterless(void) {
    static fle_answer (*const calls[])(void) = {seal, unseal, seal_value, rewrap, make_key};
    masterless = true, keyless = false;
    try_open(start);
    try_unmastered();
    for (size_t i = 0; i < sizeof calls / sizeof *calls; i++) {
        want(with(calls[i], ROOM).status == FLE_NOT_OPEN && is_unwritten(), "a call without a master key", i);
    }
}

static void read_all(FILE *file, bytes *all) {
    all->size = file ? fread(all->at, 1, ROOM, file) : ROOM;
    if (all->size == ROOM) exit(5);
    if (file != stdin) fclose(file);
}

int main(int count, char **words) {
    if (count != 6) return 2;
    db.size = strlen(words[1]), name.size = strlen(words[5]);
    memcpy(db.at, words[1], db.size), memcpy(name.at, words[5], name.size);
    read_all(fopen(words[2], "rb"), &keys), read_all(fopen(words[3], "rb"), &infos);
    read_all(fopen(words[4], "rb"), &master), read_all(stdin, &command);

    make(seal, &sealed), make(ask_info, &bare);
    try_open(open_engine);
    try_calls();
    if (infos.at[3] == 0) try_told(), try_masterless(); /* a length in BSON: no text has a 00 */
    fle_close(&slot);
    return 0;
}
