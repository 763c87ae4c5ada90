/* calls [SLOTS]: reads calls from standard input, makes them, and writes what each answered and what stands at `out`.
 *
 * A call is a letter and its arguments; an argument of bytes is a length of eight bytes, the lowest first, and so many
 * bytes; room is a length alone.
 *   o flags db keys infos master    b flags master (fle_start)    c    n size
 *   p db info    f db name    x (forget all infos)    q key    y (forget all keys)
 *   s db command blocks room    u document room
 *   m db command room    k db command room    d document room (the keys of a document)    i db command room
 *   v how key document blocks room    w how key room: how is two bytes, by a name (1) or by an id, random (1) or not
 *   r master time key blocks room    g names time blocks room
 *   z room (the version)
 * flags and time are eight bytes, the lowest first. Behind each but c: six numbers of eight bytes (for n two), and as
 * many bytes as there was room, A5 before the call.
 *
 * With a number of slots each call is made on so many at once, on each by a thread of its own, which ends before the
 * next call: so a slot is opened by one thread, sealed under by another, and closed by a third. All have to answer
 * alike, and what is written is what one of them answered. A thread has a stack of 512 KB.
 */
#include <pthread.h>
#include <stdio.h>
#include <stdlib.h>
#include <string.h>

#include "fle.h"

typedef struct {
    uint8_t *at;
    size_t size;
} bytes;

/* A call on a slot: its letter, its arguments, which all slots share, and room and answer of this slot alone. */
typedef struct {
    fle_slot slot;
    int letter;
    const bytes *in;
    bytes out;
    fle_answer answer;
} turn;

static size_t number(void) {
    uint8_t in[8];
    if (fread(in, 1, 8, stdin) != 8) exit(3);
    size_t n = 0;
    for (int i = 7; i >= 0; i--) n = n << 8 | in[i];
    return n;
}

/* Each argument has a block of its own size, so that a byte too many is seen by valgrind. */
static bytes argument(void) {
    bytes read = {NULL, number()};
    read.at = malloc(read.size ? read.size : 1);
    if (!read.at || fread(read.at, 1, read.size, stdin) != read.size) exit(3);
    return read;
}

static bytes room(size_t size) {
    bytes out = {malloc(size ? size : 1), size};
    if (!out.at) exit(3);
    memset(out.at, 0xA5, out.size);
    return out;
}

static void put(size_t n) {
    uint8_t out[8];
    for (int i = 0; i < 8; i++, n >>= 8) out[i] = (uint8_t)n;
    fwrite(out, 1, 8, stdout);
}

static void tell(fle_answer answer, bytes out) {
    put(answer.status), put(answer.reason), put(answer.file), put(answer.place), put(answer.length);
    put(answer.random);
    if (out.size) fwrite(out.at, 1, out.size, stdout);
}

/* The number that an argument of eight bytes states. */
static uint64_t number_of(bytes in) {
    uint64_t n = 0;
    for (size_t i = in.size; i-- > 0;) n = n << 8 | in.at[i];
    return n;
}

/* Makes a call that begins or ends an engine, or tells it of infos and keys: one without room. */
static void make_without_room(turn *t) {
    const bytes *in = t->in;
    if (t->letter == 'o') {
        t->answer = fle_open(&t->slot, (uint32_t)number_of(in[0]), in[1].at, in[1].size, in[2].at, in[2].size, in[3].at,
                             in[3].size, in[4].at, in[4].size);
    } else if (t->letter == 'b') {
        t->answer = fle_start(&t->slot, (uint32_t)number_of(in[0]), in[1].at, in[1].size);
    } else if (t->letter == 'p') {
        t->answer = fle_put_info(&t->slot, in[0].at, in[0].size, in[1].at, in[1].size);
    } else if (t->letter == 'f') {
        t->answer = fle_forget_info(&t->slot, in[0].at, in[0].size, in[1].at, in[1].size);
    } else if (t->letter == 'x') {
        t->answer = fle_forget_infos(&t->slot);
    } else if (t->letter == 'q') {
        t->answer = fle_put_key(&t->slot, in[0].at, in[0].size);
    } else if (t->letter == 'y') {
        t->answer = fle_forget_keys(&t->slot);
    } else {
        fle_close(&t->slot);
    }
}

/* Makes a call, on whichever thread. */
static void *make(void *of) {
    turn *t = of;
    const bytes *in = t->in, out = t->out;
    if (t->letter == 's') {
        t->answer =
            fle_seal(&t->slot, in[0].at, in[0].size, in[1].at, in[1].size, in[2].at, in[2].size, out.at, out.size);
    } else if (t->letter == 'u') {
        t->answer = fle_unseal(&t->slot, in[0].at, in[0].size, out.at, out.size);
    } else if (t->letter == 'm') {
        t->answer = fle_mark(&t->slot, in[0].at, in[0].size, in[1].at, in[1].size, out.at, out.size);
    } else if (t->letter == 'k') {
        t->answer = fle_keys_wanted(&t->slot, in[0].at, in[0].size, in[1].at, in[1].size, out.at, out.size);
    } else if (t->letter == 'v') {
        t->answer = fle_seal_value(&t->slot, in[0].at[0], in[1].at, in[1].size, in[0].at[1], in[2].at, in[2].size,
                                   in[3].at, in[3].size, out.at, out.size);
    } else if (t->letter == 'w') {
        t->answer = fle_value_keys_wanted(&t->slot, in[0].at[0], in[1].at, in[1].size, out.at, out.size);
    } else if (t->letter == 'r') {
        t->answer = fle_rewrap_key(&t->slot, in[0].at, in[0].size, (int64_t)number_of(in[1]), in[2].at, in[2].size,
                                   in[3].at, in[3].size, out.at, out.size);
    } else if (t->letter == 'g') {
        t->answer = fle_make_key(&t->slot, in[0].at, in[0].size, (int64_t)number_of(in[1]), in[2].at, in[2].size,
                                 out.at, out.size);
    } else if (t->letter == 'z') {
        t->answer = fle_version(out.at, out.size);
    } else if (t->letter == 'i') {
        t->answer = fle_info_wanted(&t->slot, in[0].at, in[0].size, in[1].at, in[1].size, out.at, out.size);
    } else if (t->letter == 'd') {
        t->answer = fle_keys_wanted_open(&t->slot, in[0].at, in[0].size, out.at, out.size);
    } else {
        make_without_room(t);
    }
    return NULL;
}

enum { STACK = 512 * 1024 };

/* Makes a call on each slot, all at once, each by a thread that was started for it and has ended behind it. */
static void make_at_once(turn *turns, size_t slots) {
    pthread_t *threads = malloc(slots * sizeof *threads);
    pthread_attr_t own;
    if (!threads || pthread_attr_init(&own) || pthread_attr_setstacksize(&own, STACK)) exit(3);
    for (size_t i = 0; i < slots; i++) {
        if (pthread_create(&threads[i], &own, make, &turns[i])) exit(3);
    }
    pthread_attr_destroy(&own);
    for (size_t i = 0; i < slots; i++) {
        if (pthread_join(threads[i], NULL)) exit(3);
    }
    free(threads);
}

static bool alike(const turn *a, const turn *b) {
    const fle_answer *x = &a->answer, *y = &b->answer;
    return x->status == y->status && x->reason == y->reason && x->file == y->file && x->place == y->place &&
           x->length == y->length && x->random == y->random && memcmp(a->out.at, b->out.at, a->out.size) == 0;
}

/* How many arguments of bytes a call has. */
static int arguments_of(int letter) {
    if (letter == 'o') return 5;
    if (strchr("vr", letter)) return 4;
    if (strchr("sg", letter)) return 3;
    if (strchr("udq", letter)) return 1;
    return strchr("cxyz", letter) ? 0 : 2;
}

static bool has_room(int letter) {
    return !strchr("obpfxqyc", letter);
}

/* Reads a call's arguments, makes it on each slot, and tells the first one's answer, which is that of all. */
static void run(turn *turns, size_t slots, bool threads, int letter) {
    const int arguments = arguments_of(letter);
    bytes in[5];
    for (int i = 0; i < arguments; i++) in[i] = argument();
    const size_t size = has_room(letter) ? number() : 0;
    for (size_t i = 0; i < slots; i++) {
        turns[i].letter = letter, turns[i].in = in, turns[i].out = room(size);
        memset(&turns[i].answer, 0, sizeof turns[i].answer);
    }
    if (threads) {
        make_at_once(turns, slots);
    } else {
        make(turns);
    }
    for (size_t i = 1; i < slots; i++) {
        if (!alike(&turns[0], &turns[i])) exit(4);
    }
    if (letter != 'c') tell(turns[0].answer, turns[0].out);
    for (size_t i = 0; i < slots; i++) free(turns[i].out.at);
    for (int i = 0; i < arguments; i++) free(in[i].at);
}

int main(int count, char **words) {
    const bool threads = count > 1;
    const size_t slots = threads ? strtoul(words[1], NULL, 10) : 1;
    turn *turns = slots ? calloc(slots, sizeof *turns) : NULL; /* zeros are empty slots */
    if (!turns) return 2;
    for (int letter; (letter = getchar()) != EOF;) {
        if (letter == 'n') {
            fle_need need = fle_needed(number());
            put(need.room), put(need.random);
        } else {
            run(turns, slots, threads, letter);
        }
    }
    run(turns, slots, threads, 'c');
    free(turns);
    return 0;
}
