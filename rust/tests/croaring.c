/* Writes and reads Roaring bitmaps with CRoaring, for tests/croaring.rs.
 *
 * Requests come on standard input, answers go to standard output, all numbers are 32 bits in this machine's order:
 *   write   0, whether to optimise runs, number of rows, rows      answered by   size, portable serialisation
 *   read    1, size, portable serialisation                       answered by   1, number of rows, rows; or 0 if it can't be read
 */
#include <roaring/roaring.h>

#include <stdint.h>
#include <stdio.h>
#include <stdlib.h>

static void stop(const char *why) {
    fprintf(stderr, "croaring: %s\n", why);
    exit(1);
}

static void *room(size_t size) {
    void *memory = malloc(size ? size : 1);
    if (!memory) stop("no memory");
    return memory;
}

static void get(void *to, size_t size, size_t number) {
    if (fread(to, size, number, stdin) != number) stop("a request is cut");
}

static uint32_t get_number(void) {
    uint32_t number;
    get(&number, sizeof number, 1);
    return number;
}

static void put(const void *from, size_t size, size_t number) {
    if (fwrite(from, size, number, stdout) != number) stop("can't write an answer");
}

static void put_number(uint32_t number) { put(&number, sizeof number, 1); }

static void write_bitmap(void) {
    uint32_t optimise = get_number();
    uint32_t number = get_number();
    uint32_t *rows = room(number * sizeof *rows);
    get(rows, sizeof *rows, number);
    roaring_bitmap_t *bitmap = roaring_bitmap_of_ptr(number, rows);
    if (!bitmap) stop("no bitmap");
    if (optimise) roaring_bitmap_run_optimize(bitmap);
    size_t size = roaring_bitmap_portable_size_in_bytes(bitmap);
    char *bytes = room(size);
    if (roaring_bitmap_portable_serialize(bitmap, bytes) != size) stop("a size is wrong");
    put_number((uint32_t)size);
    put(bytes, 1, size);
    free(bytes);
    roaring_bitmap_free(bitmap);
    free(rows);
}

static void read_bitmap(void) {
    uint32_t size = get_number();
    char *bytes = room(size);
    get(bytes, 1, size);
    roaring_bitmap_t *bitmap = roaring_bitmap_portable_deserialize_safe(bytes, size);
    put_number(bitmap != NULL);
    if (bitmap) {
        uint32_t number = (uint32_t)roaring_bitmap_get_cardinality(bitmap);
        uint32_t *rows = room(number * sizeof *rows);
        roaring_bitmap_to_uint32_array(bitmap, rows);
        put_number(number);
        put(rows, sizeof *rows, number);
        free(rows);
        roaring_bitmap_free(bitmap);
    }
    free(bytes);
}

int main(void) {
    uint32_t request;
    while (fread(&request, sizeof request, 1, stdin) == 1) {
        if (request == 0) {
            write_bitmap();
        } else if (request == 1) {
            read_bitmap();
        } else {
            stop("an unknown request");
        }
    }
    return fflush(stdout) == 0 ? 0 : 1;
}
