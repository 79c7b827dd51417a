/* Writes and reads 64-bit Roaring bitmaps with CRoaring's Roaring64Map, for tests/croaring.rs.
 *
 * Requests come on standard input, answers go to standard output, all numbers are 64 bits in this machine's order:
 *   write   0, whether to optimise runs, number of rows, rows      answered by   size, portable serialisation
 *   read    1, size, portable serialisation                       answered by   1, number of rows, rows; or 0 if it can't be read
 */
#include <roaring/roaring64map.hh>

#include <cstdint>
#include <cstdio>
#include <cstdlib>
#include <exception>
#include <vector>

/* Roaring64Map is in this namespace in later versions, and in none in earlier ones. */
namespace roaring {}
using namespace roaring;

static void stop(const char *why) {
    std::fprintf(stderr, "croaring64: %s\n", why);
    std::exit(1);
}

static void get(void *to, size_t size, size_t number) {
    if (std::fread(to, size, number, stdin) != number) stop("a request is cut");
}

static uint64_t get_number() {
    uint64_t number;
    get(&number, sizeof number, 1);
    return number;
}

static void put(const void *from, size_t size, size_t number) {
    if (std::fwrite(from, size, number, stdout) != number) stop("can't write an answer");
}

static void put_number(uint64_t number) { put(&number, sizeof number, 1); }

static void write_bitmap() {
    bool optimise = get_number() != 0;
    std::vector<uint64_t> rows(get_number());
    get(rows.data(), sizeof(uint64_t), rows.size());
    Roaring64Map bitmap(rows.size(), rows.data());
    if (optimise) bitmap.runOptimize();
    std::vector<char> bytes(bitmap.getSizeInBytes());
    if (bitmap.write(bytes.data()) != bytes.size()) stop("a size is wrong");
    put_number(bytes.size());
    put(bytes.data(), 1, bytes.size());
}

static void read_bitmap() {
    std::vector<char> bytes(get_number());
    get(bytes.data(), 1, bytes.size());
    try {
        Roaring64Map bitmap = Roaring64Map::readSafe(bytes.data(), bytes.size());
        std::vector<uint64_t> rows(bitmap.cardinality());
        bitmap.toUint64Array(rows.data());
        put_number(1);
        put_number(rows.size());
        put(rows.data(), sizeof(uint64_t), rows.size());
    } catch (const std::exception &) {
        put_number(0);
    }
}

int main() {
    uint64_t request;
    while (std::fread(&request, sizeof request, 1, stdin) == 1) {
        if (request == 0) {
            write_bitmap();
        } else if (request == 1) {
            read_bitmap();
        } else {
            stop("an unknown request");
        }
    }
    return std::fflush(stdout) == 0 ? 0 : 1;
}
