/* Validates the BSON document in a file some times over with libbson, for bench/run to time:
 *     bson_validate FILE TURNS
 * Prints the number of bytes, and exits with 1 where libbson refuses them. */
#include <bson/bson.h>
#include <stdio.h>
#include <stdlib.h>

int main(int argc, char **argv)
{
    if (argc != 3) return 2;
    FILE *file = fopen(argv[1], "rb");
    if (!file) return 2;
    fseek(file, 0, SEEK_END);
    long size = ftell(file);
    rewind(file);
    uint8_t *bytes = malloc(size);
    if (!bytes || fread(bytes, 1, size, file) != (size_t) size) return 2;
    fclose(file);
    for (long turn = atol(argv[2]); turn > 0; turn--) {
        bson_t document;
        size_t offset;
        if (!bson_init_static(&document, bytes, size)) return 1;
        if (!bson_validate(&document, BSON_VALIDATE_NONE, &offset)) return 1;
    }
    printf("%ld\n", size);
    return 0;
}
