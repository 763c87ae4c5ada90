/* Bytes that grow, and BSON: elements are read and written, no more than options, infos and messages want. */
#include "inside.h"
/* Room for so many bytes more. */
bool reserve(bytes *all, size_t more) {
    if (all->failed || more > SIZE_MAX / 4 - all->size) return !(all->failed = true);
    if (all->size + more <= all->room) return true;
    size_t room = all->size ? 2 * (all->size + more) : more;
    uint8_t *at = realloc(all->at, room);
    if (!at) return !(all->failed = true);
    all->at = at, all->room = room;
    return true;
}

void put(bytes *all, const void *from, size_t size) {
    if (!size || !reserve(all, size)) return;
    memcpy(all->at + all->size, from, size);
    all->size += size;
}

void clear(bytes *all) {
    if (all->size) explicit_bzero(all->at, all->size);
    free(all->at);
    *all = (bytes){0};
}

bool copy(bytes *all, view from) {
    clear(all);
    put(all, from.at, from.size);
    return !all->failed;
}

bool is_same(view one, view other) { return one.size == other.size && !memcmp(one.at, other.at, one.size); }

/* The pointer is never NULL, as fle.h wants it. */
view seen(const bytes *all) { return (view){all->at ? all->at : (const uint8_t *)"", all->size}; }

uint32_t number(const uint8_t *at) {
    return (uint32_t)at[0] | (uint32_t)at[1] << 8 | (uint32_t)at[2] << 16 | (uint32_t)at[3] << 24;
}

/* Whether bytes are as long as they say; what is within isn't looked at. */
bool is_document(view all) {
    return all.at && all.size >= 5 && all.size <= INT32_MAX && number(all.at) == all.size && !all.at[all.size - 1];
}

/* How many bytes two texts have that each end with 00, or SIZE_MAX. */
static size_t pair_size(view rest) {
    const uint8_t *first = memchr(rest.at, 0, rest.size);
    size_t size = first ? (size_t)(first - rest.at) + 1 : rest.size;
    const uint8_t *second = memchr(rest.at + size, 0, rest.size - size);
    return second ? (size_t)(second - rest.at) + 1 : SIZE_MAX;
}

/* How many bytes a value of this type has, or SIZE_MAX where there are fewer, or no such type. The tables have one more
 * than a value has, and than it has beside the length that it begins with. */
static size_t value_size(uint8_t type, view rest) {
    static const uint8_t fixed[256] = {[1] = 9,  [6] = 1,  [7] = 13, [8] = 2,   [9] = 9,   [10] = 1,
                                       [16] = 5, [17] = 9, [18] = 9, [19] = 17, [127] = 1, [255] = 1};
    static const uint8_t counted[256] = {[2] = 5, [3] = 1, [4] = 1, [5] = 6, [12] = 17, [13] = 5, [14] = 5, [15] = 1};
    size_t size = SIZE_MAX;
    if (fixed[type]) size = fixed[type] - 1;
    if (counted[type] && rest.size >= 4) size = (size_t)number(rest.at) + counted[type] - 1;
    if (type == 11) size = pair_size(rest);
    return size <= rest.size ? size : SIZE_MAX;
}

/* The element at an offset of a document, and the offset behind it; false at the end, or at bytes that are none. */
bool next(view document, size_t *at, element *found) {
    if (*at < 4) *at = 4;
    if (!is_document(document) || *at + 2 > document.size - 1) return false;
    const uint8_t *name = document.at + *at + 1, *last = memchr(name, 0, document.size - 1 - (*at + 1));
    if (!last) return false;
    view rest = {last + 1, document.size - 1 - (size_t)(last + 1 - document.at)};
    size_t size = value_size(document.at[*at], rest);
    if (size == SIZE_MAX) return false;
    *found = (element){document.at[*at], (const char *)name, {last + 1, size}};
    *at = (size_t)(last + 1 - document.at) + size;
    return true;
}

/* Whether elements were read up to the end. */
bool is_end(view document, size_t at) { return is_document(document) && at == document.size - 1; }

bool find(view document, const char *name, element *found) {
    for (size_t at = 0; next(document, &at, found);)
        if (!strcmp(found->name, name)) return true;
    return false;
}

/* A document, or an array. */
bool holds_document(const element *one) { return (one->type == 3 || one->type == 4) && is_document(one->value); }

/* The text of a string; NULL also for one with a 00 inside. */
const char *text(const element *one) {
    view all = one->value;
    bool is = one->type == TEXT && all.size >= 5 && memchr(all.at + 4, 0, all.size - 4) == all.at + all.size - 1;
    return is ? (const char *)all.at + 4 : NULL;
}

static void put_number(bytes *all, size_t size) {
    for (int bits = 0; bits < 32; bits += 8) put(all, (uint8_t[]){(uint8_t)(size >> bits)}, 1);
}

void put_element(bytes *all, uint8_t type, const char *name, view value) {
    put(all, &type, 1);
    put(all, name, strlen(name) + 1);
    put(all, value.at, value.size);
}

void put_text(bytes *all, const char *name, const char *value) {
    put_element(all, TEXT, name, NONE);
    put_number(all, strlen(value) + 1);
    put(all, value, strlen(value) + 1);
}

/* Begins a document at the end of bytes, inside another where it has a name; `end` takes what is answered. */
size_t begin(bytes *all, uint8_t type, const char *name) {
    if (name) put_element(all, type, name, NONE);
    put_number(all, 0);
    return all->size - 4;
}

void end(bytes *all, size_t start) {
    put(all, "", 1);
    size_t size = all->size - start;
    for (int i = 0; !all->failed && i < 4; i++) all->at[start + (size_t)i] = (uint8_t)(size >> 8 * i);
}
