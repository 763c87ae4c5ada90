/* Calls of contrib/c in process, and the same by the context states of libmongocrypt, for bench/library:
 *
 *     library times NAMES TURNS CALLS FILES   for each call that is named a line `SIDE CALL LEAST MEDIAN`: ns of so
 *                                             many turns, in which sides and calls take turns, each with so many calls
 *     library count SIDE CALL CALLS FILES     makes so many calls, for callgrind
 *     library stay SIDE CALLS FILES           seals so often: the most memory in KB after 1,000 calls and after all,
 *                                             and ns a call
 *
 * FILES are DB KEY INFO MASTER COMMAND REPLY. DB is a name, the others are paths: a key document, a collection info, a
 * master key of 96 bytes, a command, and its marking reply, which libmongocrypt asks for where ours marks. The sides
 * are `fle` and, where it was compiled with LIBMONGOCRYPT, `libmongocrypt`; the calls are open, first, seal and unseal.
 * Before, each side opens what it and the other sealed. */
#define _GNU_SOURCE
#include <stdio.h>
#include <stdlib.h>
#include <string.h>
#include <sys/random.h>
#include <time.h>
#include <unistd.h>

#ifdef LIBMONGOCRYPT
#include <mongocrypt.h>
#endif

#include "fle.h"

typedef struct {
    uint8_t *at;
    size_t size;
} bytes;

typedef struct {
    const char *side, *name;
    void (*call)(void);
} subject;

static const char *db;
static bytes key, info, master, command, reply, sealed, out;
static uint8_t *blocks;
static size_t room, begun;
static fle_slot kept = FLE_SLOT, *opened;

static void die(const char *what) {
    fprintf(stderr, "library: %s\n", what);
    exit(1);
}

static bytes file_of(const char *path) {
    FILE *file = fopen(path, "rb");
    bytes read = {malloc(1 << 20), 0};
    if (!file || !read.at) die(path);
    read.size = fread(read.at, 1, 1 << 20, file);
    fclose(file);
    return read;
}

/* ---- contrib/c */

enum { FEW = 256, SPARE = 4096 }; /* random bytes, and room beside twice a command, that a call begins with */

static size_t done(fle_answer answer) {
    if (answer.status != FLE_DONE) die("a call came to another end");
    return answer.length;
}

static void open_in(fle_slot *slot) {
    done(fle_open(slot, 0, (const uint8_t *)db, strlen(db), key.at, key.size, info.at, info.size, master.at,
                  master.size));
}

/* With what fle.h says to begin with, and where that is too little once more with what is told. The random bytes are
 * asked of the system for each call. */
static void seal_in(fle_slot *slot) {
    size_t random = FEW, size = 2 * command.size + SPARE;
    for (bool again = false;; again = true) {
        if (getrandom(blocks, random, 0) != (ssize_t)random) die("no random bytes");
        fle_answer answer = fle_seal(slot, (const uint8_t *)db, strlen(db), command.at, command.size, blocks, random,
                                     out.at, size);
        bool more = answer.status == FLE_ENTROPY || answer.status == FLE_NO_ROOM;
        if (!more || again) {
            out.size = done(answer);
            return;
        }
        random = answer.random, size = answer.length;
    }
}

static void open_one(void) {
    open_in(opened + begun++);
}

static void first(void) {
    fle_slot slot = FLE_SLOT;
    open_in(&slot);
    seal_in(&slot);
    fle_close(&slot);
}

static void seal(void) {
    seal_in(&kept);
}

static void unseal(void) {
    out.size = done(fle_unseal(&kept, sealed.at, sealed.size, out.at, room));
}

/* ---- libmongocrypt */

#ifdef LIBMONGOCRYPT
static mongocrypt_t *handle;

static mongocrypt_t *new_handle(void) {
    mongocrypt_t *made = mongocrypt_new();
    mongocrypt_binary_t *bin = mongocrypt_binary_new_from_data(master.at, master.size);
    if (!mongocrypt_setopt_kms_provider_local(made, bin) || !mongocrypt_init(made)) die("no handle of libmongocrypt");
    mongocrypt_binary_destroy(bin);
    return made;
}

/* Answers what a context asks for. Of each kind there is one document. */
static bool answer(mongocrypt_ctx_t *ctx, mongocrypt_ctx_state_t state) {
    if (state == MONGOCRYPT_CTX_NEED_KMS) return mongocrypt_ctx_kms_done(ctx);
    if (state < MONGOCRYPT_CTX_NEED_MONGO_COLLINFO || state > MONGOCRYPT_CTX_NEED_MONGO_KEYS) return false;
    bytes fed = state == MONGOCRYPT_CTX_NEED_MONGO_KEYS ? key : reply;
    if (state == MONGOCRYPT_CTX_NEED_MONGO_COLLINFO) fed = info;
    mongocrypt_binary_t *asked = mongocrypt_binary_new(), *bin = mongocrypt_binary_new_from_data(fed.at, fed.size);
    bool well = mongocrypt_ctx_mongo_op(ctx, asked) && mongocrypt_ctx_mongo_feed(ctx, bin);
    well = well && mongocrypt_ctx_mongo_done(ctx);
    mongocrypt_binary_destroy(asked), mongocrypt_binary_destroy(bin);
    return well;
}

/* The command is sealed, or what was sealed is opened; what comes out is copied, as ours writes it. */
static void run(mongocrypt_t *by, bool seals) {
    bytes in = seals ? command : sealed;
    mongocrypt_ctx_t *ctx = mongocrypt_ctx_new(by);
    mongocrypt_binary_t *bin = mongocrypt_binary_new_from_data(in.at, in.size), *result = mongocrypt_binary_new();
    bool well = seals ? mongocrypt_ctx_encrypt_init(ctx, db, -1, bin) : mongocrypt_ctx_decrypt_init(ctx, bin);
    mongocrypt_ctx_state_t state;
    while (well && (state = mongocrypt_ctx_state(ctx)) != MONGOCRYPT_CTX_READY) well = answer(ctx, state);
    if (!well || !mongocrypt_ctx_finalize(ctx, result)) die("libmongocrypt refuses");
    out.size = mongocrypt_binary_len(result);
    if (out.size > room) die("libmongocrypt writes more than there is room for");
    memcpy(out.at, mongocrypt_binary_data(result), out.size);
    mongocrypt_binary_destroy(result), mongocrypt_binary_destroy(bin);
    mongocrypt_ctx_destroy(ctx);
}

static void their_first(void) {
    mongocrypt_t *fresh = new_handle();
    run(fresh, true);
    mongocrypt_destroy(fresh);
}

static void their_seal(void) {
    run(handle, true);
}

static void their_unseal(void) {
    run(handle, false);
}
#endif

static const subject subjects[] = {
    {"fle", "open", open_one},
    {"fle", "first", first},
#ifdef LIBMONGOCRYPT
    {"libmongocrypt", "first", their_first},
#endif
    {"fle", "seal", seal},
#ifdef LIBMONGOCRYPT
    {"libmongocrypt", "seal", their_seal},
#endif
    {"fle", "unseal", unseal},
#ifdef LIBMONGOCRYPT
    {"libmongocrypt", "unseal", their_unseal},
#endif
};
enum { SUBJECTS = sizeof subjects / sizeof *subjects };

static void (*call_of(const char *side, const char *name))(void) {
    for (int i = 0; i < SUBJECTS; i++) {
        if (!strcmp(subjects[i].side, side) && !strcmp(subjects[i].name, name)) return subjects[i].call;
    }
    die("no such call");
    return NULL;
}

/* ---- */

static void want_the_command(const char *what) {
    if (out.size != command.size || memcmp(out.at, command.at, out.size)) die(what);
}

static void keep_what_was_sealed(void) {
    memcpy(sealed.at, out.at, out.size);
    sealed.size = out.size;
}

/* Ends the process unless each side opens what it and the other sealed. Leaves what ours sealed. */
static void look_at_answers(void) {
#ifdef LIBMONGOCRYPT
    their_seal(), keep_what_was_sealed();
    their_unseal(), want_the_command("libmongocrypt doesn't open what it sealed");
    unseal(), want_the_command("ours doesn't open what libmongocrypt sealed");
#endif
    seal(), keep_what_was_sealed();
    unseal(), want_the_command("ours doesn't open what it sealed");
#ifdef LIBMONGOCRYPT
    their_unseal(), want_the_command("libmongocrypt doesn't open what ours sealed");
#endif
}

static void begin(char **files, size_t opens) {
    db = files[0];
    key = file_of(files[1]), info = file_of(files[2]), master = file_of(files[3]);
    command = file_of(files[4]), reply = file_of(files[5]);
    fle_need need = fle_needed(command.size);
    room = need.room + 2 * command.size + SPARE;
    blocks = malloc(need.random + FEW), sealed.at = malloc(room), out.at = malloc(room);
    opened = calloc(opens + 1, sizeof *opened);
    if (!blocks || !sealed.at || !out.at || !opened) die("no memory");
    open_in(&kept);
#ifdef LIBMONGOCRYPT
    handle = new_handle();
#endif
    look_at_answers();
}

/* Processor time, in ns. */
static double now(void) {
    struct timespec t;
    clock_gettime(CLOCK_PROCESS_CPUTIME_ID, &t);
    return t.tv_sec * 1e9 + t.tv_nsec;
}

/* One turn of a call: ns a call. What it opened is closed behind it. */
static double turn(void (*call)(void), long calls) {
    double start = now();
    for (long i = 0; i < calls; i++) call();
    double spent = now() - start;
    while (begun) fle_close(opened + --begun);
    return spent / calls;
}

static int in_order(const void *one, const void *other) {
    double a = *(const double *)one, b = *(const double *)other;
    return (a > b) - (a < b);
}

static void times(const char *names, long turns, long calls) {
    subject among[SUBJECTS];
    int count = 0;
    for (int i = 0; i < SUBJECTS; i++) {
        if (strstr(names, subjects[i].name)) among[count++] = subjects[i];
    }
    double *spent = malloc(SUBJECTS * turns * sizeof *spent);
    if (!spent) die("no memory");
    for (int i = 0; i < count; i++) turn(among[i].call, calls);
    for (long at = 0; at < turns; at++) {
        for (int i = 0; i < count; i++) spent[i * turns + at] = turn(among[i].call, calls);
    }
    for (int i = 0; i < count; i++) {
        double *own = spent + i * turns;
        qsort(own, turns, sizeof *own, in_order);
        printf("%s %s %.1f %.1f\n", among[i].side, among[i].name, own[0], own[turns / 2]);
    }
}

/* The most memory that the process had at once, in KB. */
static long most_memory(void) {
    char line[256];
    long most = -1;
    FILE *status = fopen("/proc/self/status", "r");
    while (status && fgets(line, sizeof line, status)) sscanf(line, "VmHWM: %ld", &most);
    if (status) fclose(status);
    return most;
}

static void stay(void (*call)(void), long calls) {
    long early = most_memory();  /* once before, so that what reading it takes is in both figures */
    double start = now();
    for (long i = 0; i < calls; i++) {
        if (i == 1000) early = most_memory();
        call();
    }
    double spent = now() - start;
    printf("%ld %ld %.1f\n", early, most_memory(), spent / calls);
}

int main(int argc, char **argv) {
    if (argc == 11 && !strcmp(argv[1], "times")) {
        begin(argv + 5, atol(argv[4]));
        times(argv[2], atol(argv[3]), atol(argv[4]));
    } else if (argc == 11 && !strcmp(argv[1], "count")) {
        begin(argv + 5, atol(argv[4]));
        for (long i = 0; i < atol(argv[4]); i++) call_of(argv[2], argv[3])();
    } else if (argc == 10 && !strcmp(argv[1], "stay")) {
        begin(argv + 4, 0);
        stay(call_of(argv[2], "seal"), atol(argv[3]));
    } else {
        die("the words are none of its forms");
    }
    return 0;
}
