/* seal DB KEYS INFOS MASTER < COMMAND: seals one command in process, opens it again and compares; writes the sealed
 * one. The status is that of the call that came to another end than FLE_DONE, or as the program's: 2 for other words, 5
 * where a file can't be read, 6 where the output can't be written, 7 for want of random bytes, 8 for want of memory. It
 * is 1 too where the command doesn't come back. But with 0, and perhaps a front with 6, nothing is written. */
#define _GNU_SOURCE
#include <errno.h>
#include <stdio.h>
#include <stdlib.h>
#include <string.h>
#include <sys/random.h>

#include "fle.h"

enum { WORDS = 2, READ = 5, WRITE = 6 };
/* What fle.h says to begin with: so many random bytes, and so much room beside twice the command's. */
enum { FEW = 256, SPARE = 4096 };

typedef struct {
    uint8_t *at;
    size_t size;
} bytes;

/* Room for so many bytes, never NULL; the process ends where there is none. */
static uint8_t *room(size_t size) {
    uint8_t *at = malloc(size ? size : 1);
    if (!at) exit(FLE_MEMORY);
    return at;
}

/* What a file holds; the process ends where it can't be read. */
static bytes read_all(FILE *file) {
    bytes all = {room(0), 0};
    uint8_t piece[65536];
    size_t n;
    while (file && (n = fread(piece, 1, sizeof piece, file)) > 0) {
        all.at = realloc(all.at, all.size + n);
        if (!all.at) exit(FLE_MEMORY);
        memcpy(all.at + all.size, piece, n);
        all.size += n;
    }
    if (!file || ferror(file)) exit(READ);
    if (file != stdin) fclose(file);
    return all;
}

/* So many bytes of the system's generator. */
static uint8_t *random_bytes(size_t size) {
    uint8_t *at = room(size);
    for (size_t done = 0; done < size;) {
        ssize_t n = getrandom(at + done, size - done, 0);
        if (n < 0 && errno != EINTR) exit(FLE_ENTROPY);
        if (n > 0) done += (size_t)n;
    }
    return at;
}

/* Ends the process where a call didn't do what was asked; else says how many bytes it wrote. */
static size_t done(fle_answer answer) {
    if (answer.status == FLE_DONE) return answer.length;
    fprintf(stderr, "fle: %u, reason %u, file %u, place %zu, length %zu\n", answer.status, answer.reason, answer.file,
            answer.place, answer.length);
    exit((int)answer.status);
}

/* A command sealed: by a call with few random bytes, or else by a second one, with what the first says it wants. */
static bytes seal(fle_slot *slot, bytes db, bytes command) {
    size_t random = FEW, size = 2 * command.size + SPARE;
    for (bool again = false;; again = true) {
        uint8_t *blocks = random_bytes(random), *out = room(size);
        fle_answer answer = fle_seal(slot, db.at, db.size, command.at, command.size, blocks, random, out, size);
        free(blocks);
        bool more = answer.status == FLE_ENTROPY || answer.status == FLE_NO_ROOM;
        if (again || !more) return (bytes){out, done(answer)};
        free(out);
        random = answer.random, size = answer.length;
    }
}

/* Writes bytes to standard output, whole; the process ends where they can't be written. */
static void write_all(const uint8_t *at, size_t size) {
    if (fwrite(at, 1, size, stdout) != size || fclose(stdout)) exit(WRITE);
}

int main(int argc, char **argv) {
    if (argc != 5) return WORDS;
    bytes db = {(uint8_t *)argv[1], strlen(argv[1])};
    bytes keys = read_all(fopen(argv[2], "rb")), infos = read_all(fopen(argv[3], "rb"));
    bytes master = read_all(fopen(argv[4], "rb")), command = read_all(stdin);

    fle_slot slot = FLE_SLOT;
    done(fle_open(&slot, 0, db.at, db.size, keys.at, keys.size, infos.at, infos.size, master.at, master.size));
    bytes sealed = seal(&slot, db, command);
    uint8_t *opened = room(sealed.size);
    size_t again = done(fle_unseal(&slot, sealed.at, sealed.size, opened, sealed.size));
    fle_close(&slot);

    int same = again == command.size && memcmp(opened, command.at, command.size) == 0;
    if (same) write_all(sealed.at, sealed.size);
    free(keys.at), free(infos.at), free(master.at), free(command.at), free(sealed.at), free(opened);
    return same ? FLE_DONE : FLE_REFUSED;
}
