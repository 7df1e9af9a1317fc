// The edits of libstdc++'s rope, and what shows them to be right; the other calls are left out.
#include "library.h"
#include <ext/rope>
#include <vector>

namespace {

using __gnu_cxx::crope;

const crope &rope(void *text) {
    return *static_cast<crope *>(text);
}

void begin() {}

}  // namespace

extern "C" {

void *libstdcxx_by_cat(uint64_t size, size_t part) {
    crope *text = new crope();
    for (uint64_t place = 0; place < size; place += part) text->append(source_at(place), part_at(place, size, part));
    return text;
}

uint64_t libstdcxx_fetch(void *text, uint64_t size, uint64_t count) {
    uint64_t state = 1, total = 0;
    for (uint64_t i = 0; i < count; i++) total += static_cast<unsigned char>(rope(text)[next_place(&state, size)]);
    return total;
}

void *libstdcxx_edited(void *text, const struct edits *edits) {
    crope *made = new crope(rope(text));
    std::vector<crope> *kept = new std::vector<crope>();
    uint64_t state = 1;
    for (uint64_t i = 0; i < edits->count; i++) {
        made->insert(edit_place(edits, i, &state), "e", 1);
        if (edits->are_kept) kept->push_back(*made);
    }
    keep(kept);
    return made;
}

const struct library libstdcxx = {
    "libstdc++", begin,   libstdcxx_by_cat, nullptr, nullptr, nullptr, libstdcxx_fetch,  nullptr, nullptr, nullptr,
    nullptr,     nullptr, nullptr,          nullptr, libstdcxx_edited, nullptr, nullptr, nullptr,
};

}
