// Joins part files of either format as `pcalc collapse` does, by a heap over all inputs, which it holds in memory: what a hand-written program takes.
//
//     merge OUT IN...
#include <algorithm>
#include <cstdint>
#include <cstdio>
#include <cstring>
#include <queue>
#include <string>
#include <string_view>
#include <vector>

namespace {

uint64_t number(const char* at, int bytes) {
    uint64_t n = 0;
    for (int i = 0; i < bytes; ++i) n = n << 8 | static_cast<unsigned char>(at[i]);
    return n;
}

struct Range {
    uint32_t low, high;
};

[[noreturn]] void fail(const char* why) {
    std::fprintf(stderr, "merge: %s\n", why);
    std::exit(1);
}

// A part's text, and its current entry.
struct Input {
    std::string text;
    size_t at = 0;
    uint64_t run = 0;
    std::vector<Range> ranges;
    // The key's own bytes, and what follows them.
    std::string_view own, entry;
    uint64_t head = 0;
    uint32_t space = 0, point = 0, count = 0;
    bool has_spaces = false;

    const char* take(size_t bytes) {
        if (text.size() - at < bytes) fail("Short");
        at += bytes;
        return text.data() + at - bytes;
    }

    void open(const char* path) {
        std::FILE* file = std::fopen(path, "rb");
        if (!file) fail("NoFile");
        char piece[65536];
        for (size_t n; (n = std::fread(piece, 1, sizeof piece, file)) > 0;) text.append(piece, n);
        std::fclose(file);
        const char* magic = take(8);
        has_spaces = std::memcmp(magic, "PCALCP02", 8) == 0;
        if (!has_spaces && std::memcmp(magic, "PCALCP01", 8) != 0) fail("BadMagic");
        run = number(take(8), 8);
        uint64_t some = number(take(4), 4);
        for (uint64_t i = 0; i < some; ++i) {
            uint32_t low = number(take(4), 4), high = number(take(4), 4);
            ranges.push_back({low, high});
        }
    }

    bool covers(uint32_t p) const {
        for (const Range& range : ranges)
            if (range.low <= p && p <= range.high) return true;
        return false;
    }

    // Goes to the next entry; false at the end.
    bool next() {
        size_t length = number(take(2), 2);
        if (length == 0) {
            if (number(take(4), 4) != count) fail("BadLength");
            if (at != text.size()) fail("Trailing");
            return false;
        }
        std::string_view before = own;
        uint32_t space_before = space;
        space = has_spaces ? number(take(2), 2) : 0;
        own = {take(length), length};
        if (space < space_before || (space == space_before && !(before < own))) fail("KeyOrder");
        size_t start = at;
        point = number(take(4), 4);
        if (!covers(point)) fail("NotCovered");
        char kind = *take(1);
        if (kind == 1) take(number(take(4), 4));
        else if (kind != 0) fail("BadKind");
        entry = {text.data() + start, at - start};
        char first[8] = {};
        std::memcpy(first, own.data(), std::min<size_t>(8, length));
        head = number(first, 8);
        ++count;
        return true;
    }
};

struct Later {
    bool operator()(const Input* a, const Input* b) const {
        if (a->space != b->space) return a->space > b->space;
        if (a->head != b->head) return a->head > b->head;
        return a->own > b->own;
    }
};

void put(std::string& out, uint64_t n, int bytes) {
    for (int i = bytes - 1; i >= 0; --i) out.push_back(static_cast<char>(n >> (8 * i)));
}

void flush(std::string& out, std::FILE* file) {
    if (std::fwrite(out.data(), 1, out.size(), file) != out.size()) fail("Device");
    out.clear();
}

std::vector<Range> together(const std::vector<Input>& inputs) {
    std::vector<Range> all, joined;
    for (const Input& input : inputs) all.insert(all.end(), input.ranges.begin(), input.ranges.end());
    std::sort(all.begin(), all.end(), [](Range a, Range b) { return a.low < b.low; });
    for (Range range : all) {
        if (!joined.empty() && range.low <= joined.back().high + 1) joined.back().high = std::max(joined.back().high, range.high);
        else joined.push_back(range);
    }
    return joined;
}

}  // namespace

int main(int argc, char** argv) {
    if (argc < 3) fail("merge OUT IN...");
    std::vector<Input> inputs(argc - 2);
    for (int i = 2; i < argc; ++i) inputs[i - 2].open(argv[i]);
    for (const Input& input : inputs)
        if (input.run != inputs[0].run) fail("OtherRun");
    std::vector<Range> ranges = together(inputs);
    std::FILE* file = std::fopen(argv[1], "wb");
    if (!file) fail("Device");
    std::string out = "PCALCP02";
    put(out, inputs[0].run, 8);
    put(out, ranges.size(), 4);
    for (Range range : ranges) put(out, range.low, 4), put(out, range.high, 4);
    std::priority_queue<Input*, std::vector<Input*>, Later> heap;
    for (Input& input : inputs)
        if (input.next()) heap.push(&input);
    uint64_t entries = 0;
    while (!heap.empty()) {
        Input* first = heap.top();
        std::string_view own = first->own, newest = first->entry;
        uint32_t space = first->space, point = first->point;
        while (!heap.empty() && heap.top()->space == space && heap.top()->own == own) {
            Input* input = heap.top();
            heap.pop();
            if (input->point > point) newest = input->entry, point = input->point;
            else if (input->point == point && input->entry != newest) fail("Conflict");
            if (input->next()) heap.push(input);
        }
        put(out, own.size(), 2);
        put(out, space, 2);
        out.append(own);
        out.append(newest);
        ++entries;
        if (out.size() >= 65536) flush(out, file);
    }
    put(out, 0, 2);
    put(out, entries, 4);
    flush(out, file);
    if (std::fclose(file) != 0) fail("Device");
    std::printf("entries %llu\n", static_cast<unsigned long long>(entries));
}
