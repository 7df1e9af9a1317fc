// The calls of Abseil's Cord, which has one call for appends and no places: searches go over its chunks.
#include "library.h"
#include <absl/strings/cord.h>
#include <malloc.h>
#include <string.h>
#include <vector>

namespace {

const absl::Cord &cord(void *text) {
    return *static_cast<absl::Cord *>(text);
}

void begin() {}

uint64_t in_use() {
    struct mallinfo2 info = mallinfo2();
    return info.uordblks + info.hblkhd;
}

}  // namespace

extern "C" {

void *abseil_by_cat(uint64_t size, size_t part) {
    absl::Cord *text = new absl::Cord();
    for (uint64_t place = 0; place < size; place += part)
        text->Append(absl::string_view(source_at(place), part_at(place, size, part)));
    return text;
}

uint64_t abseil_cut(void *text, uint64_t size, uint64_t count, uint64_t length) {
    uint64_t state = 1, total = 0;
    absl::Cord part;
    for (uint64_t i = 0; i < count; i++) {
        part = cord(text).Subcord(next_place(&state, size - length), length);
        total += part.size();
    }
    return total * 256 + static_cast<unsigned char>(part[length - 1]);
}

uint64_t abseil_fetch(void *text, uint64_t size, uint64_t count) {
    uint64_t state = 1, total = 0;
    for (uint64_t i = 0; i < count; i++) total += static_cast<unsigned char>(cord(text)[next_place(&state, size)]);
    return total;
}

uint64_t abseil_make(uint64_t count) {
    uint64_t total = 0;
    for (uint64_t i = 0; i < count; i++) {
        absl::Cord made(absl::string_view(source_at(i), 10));
        keep(&made);
        total += made.size();
    }
    return total;
}

uint64_t abseil_walk(void *text) {
    uint64_t total = 0;
    for (char byte : cord(text).Chars()) total += static_cast<unsigned char>(byte);
    return total;
}

uint64_t abseil_lines(void *text) {
    uint64_t total = 0, place = 0, size = cord(text).size();
    for (auto at = cord(text).char_begin(); place < size;) {
        absl::string_view rest = absl::Cord::ChunkRemaining(at);
        const void *found = memchr(rest.data(), '\n', rest.size());
        size_t count = found == nullptr ? rest.size() : static_cast<const char *>(found) - rest.data() + 1;
        place += count;
        if (found != nullptr) total += place - 1;
        absl::Cord::Advance(&at, count);
    }
    return total;
}

uint64_t abseil_absent(void *text) {
    for (absl::string_view chunk : cord(text).Chunks())
        if (memchr(chunk.data(), ABSENT, chunk.size()) != nullptr) return 0;
    return 1;
}

uint64_t abseil_chunks(void *text) {
    uint64_t total = 0;
    for (absl::string_view chunk : cord(text).Chunks()) total += chunk.size();
    return total;
}

uint64_t abseil_read(void *text) {
    static char bytes[READ_LEN];
    uint64_t total = 0, left = cord(text).size();
    for (auto at = cord(text).char_begin(); left != 0;) {
        size_t done = 0, most = left < READ_LEN ? left : READ_LEN;
        while (done < most) {
            absl::string_view rest = absl::Cord::ChunkRemaining(at).substr(0, most - done);
            memcpy(bytes + done, rest.data(), rest.size());
            absl::Cord::Advance(&at, rest.size());
            done += rest.size();
        }
        total += static_cast<unsigned char>(bytes[0]) + static_cast<unsigned char>(bytes[most - 1]);
        left -= most;
    }
    return total;
}

uint64_t abseil_compare(void *text, void *other) {
    return cord(text) == cord(other);
}

void *abseil_edited(void *text, const struct edits *edits) {
    absl::Cord *made = new absl::Cord(cord(text));
    std::vector<absl::Cord> kept;
    uint64_t state = 1;
    for (uint64_t i = 0; i < edits->count; i++) {
        uint64_t place = edit_place(edits, i, &state);
        absl::Cord suffix = made->Subcord(place, made->size() - place);
        made->RemoveSuffix(suffix.size());
        made->Append("e");
        made->Append(std::move(suffix));
        if (edits->are_kept) kept.push_back(*made);
    }
    keep(kept.data());
    new std::vector<absl::Cord>(std::move(kept));  // which stay, as in the other libraries
    return made;
}

uint64_t abseil_share(void *text, uint64_t count) {
    uint64_t total = 0;
    for (uint64_t i = 0; i < count; i++) {
        absl::Cord copy = cord(text);
        keep(&copy);
        total += copy.size();
    }
    return total;
}

void abseil_release(void *text) {
    delete static_cast<absl::Cord *>(text);
}

const struct library abseil = {
    "Abseil",     begin,        abseil_by_cat, abseil_by_cat,  nullptr,        abseil_cut,   abseil_fetch,
    abseil_make,  abseil_walk,  abseil_lines,  abseil_absent,  abseil_chunks,  abseil_read,  abseil_compare,
    abseil_edited, abseil_share, abseil_release, in_use,
};

}
