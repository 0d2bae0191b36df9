// C++ over the header for C: chunks of an area as arrays of a struct, which one thread fills and another one sums up where they lie.
#include "lembokuj.h"

#include <cstdio>
#include <cstdlib>
#include <memory>
#include <thread>
#include <vector>

namespace {

void must(int code) {
    if (code < 0) {
        std::fprintf(stderr, "chunks: %s\n", lk_message(code));
        std::exit(1);
    }
}

struct AreaClose {
    void operator()(lk_area *area) const { lk_area_close(&area); }
};
struct ChunkClose {
    void operator()(lk_chunk *chunk) const { lk_chunk_close(&chunk); }
};
using Area = std::unique_ptr<lk_area, AreaClose>;
using Chunk = std::unique_ptr<lk_chunk, ChunkClose>;

// The items of a chunk: T is made of plain words.
template <class T> struct Items {
    T *first;
    size_t count;
    explicit Items(const Chunk &chunk) {
        void *memory = nullptr;
        size_t bytes = 0;
        must(lk_chunk_memory(chunk.get(), &memory, &bytes));
        first = static_cast<T *>(memory);
        count = bytes / sizeof(T);
    }
    T *begin() const { return first; }
    T *end() const { return first + count; }
};

struct Point {
    uint64_t at;
    double value;
};

std::vector<Chunk> fill(const Area &area, size_t chunks) {
    std::vector<Chunk> made;
    for (size_t n = 0; n < chunks; n++) {
        lk_chunk *chunk = nullptr;
        must(lk_area_alloc(area.get(), 16 * (1 + n % 100), &chunk));
        made.emplace_back(chunk);
        uint64_t at = n;
        for (Point &point : Items<Point>(made.back())) {
            point.at = at++;
            point.value = 0.5;
        }
    }
    return made;
}

} // namespace

int main() {
    lk_area *handles[2] = {};
    must(lk_area_new(1000, 2, handles));
    Area ours(handles[0]), theirs(handles[1]);
    std::vector<Chunk> chunks;
    std::thread filling([&] { chunks = fill(theirs, 1000); });
    filling.join();
    double sum = 0;
    size_t points = 0, n = 0;
    for (Chunk &chunk : chunks) {
        uint64_t at = n++;
        for (const Point &point : Items<Point>(chunk)) {
            if (point.at != at++) return 2;
            sum += point.value;
            points++;
        }
        lk_chunk *given = chunk.release();
        must(lk_area_free(ours.get(), &given));
    }
    if (sum != 0.5 * static_cast<double>(points) || points < 50500) return 3;
    std::printf("chunks: %zu points in %zu chunks, by %s\n", points, n, lk_version());
}
