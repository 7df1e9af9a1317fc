// zomtsje.hpp: cords in C++17 over zomtsje.h. Everything is in this header; link libzomtsje.
//
// A zomtsje::cord is a value as std::string is one, but a copy shares the bytes, and joins and cuts copy at most 64
// of them:
//
//     zomtsje::cord text = "one three";
//     const zomtsje::cord old = text;
//     text.insert(4, "two ");
//     std::cout << text << " was " << old << '\n';
//
// Memory that is refused throws std::bad_alloc, a text beyond zomtsje::cord::max_size std::length_error, a place that
// isn't there std::out_of_range, and a system call that fails std::system_error; what a call was to change is then as
// it was. Cords that share parts are used by one thread at a time, for reads too. Costs are those of zomtsje.h.
#ifndef ZOMTSJE_HPP
#define ZOMTSJE_HPP

#include "zomtsje.h"

#include <algorithm>
#include <cerrno>
#include <cstddef>
#include <cstdint>
#include <functional>

#include <iterator>
#include <memory>
#include <new>
#include <ostream>
#include <stdexcept>
#include <string>
#include <string_view>
#include <system_error>
#include <utility>
#include <vector>
#if __cplusplus >= 202002L
#include <compare>
#endif

namespace zomtsje {

namespace detail {

// Throws what a code means; does nothing for ZC_OK.
inline void check(int code) {
    switch (code) {
    case ZC_OK: return;
    case ZC_NO_MEMORY: throw std::bad_alloc();
    case ZC_TOO_LONG: throw std::length_error("zomtsje: too long");
    case ZC_READ_FAILED:
    case ZC_WRITE_FAILED:
    case ZC_WOULD_BLOCK: throw std::system_error(errno, std::generic_category(), std::string("zomtsje: ") + zc_message(code));
    case ZC_TOO_MANY_FILES: throw std::system_error(EMFILE, std::generic_category(), "zomtsje: too many files");
    case ZC_PAST_END: throw std::out_of_range("zomtsje: past the end");
    default: throw std::logic_error(std::string("zomtsje: ") + zc_message(code));
    }
}

} // namespace detail

class cord;
class file_set;
class lazy_cord;

// Goes over the chunks of a cord, each a std::string_view that holds until the next one is taken.
class chunk_iterator {
public:
    using iterator_category = std::input_iterator_tag;
    using value_type = std::string_view;
    using difference_type = std::ptrdiff_t;
    using pointer = const std::string_view *;
    using reference = std::string_view;

    chunk_iterator() = default; // the end
    inline chunk_iterator(const cord &text, std::uint64_t start);

    std::string_view operator*() const {
        return {reinterpret_cast<const char *>(state_->bytes), state_->count};
    }
    chunk_iterator &operator++() {
        if (zc_chunks_next(state_.get()) == 0) state_.reset();
        return *this;
    }
    void operator++(int) { ++*this; }
    friend bool operator==(const chunk_iterator &x, const chunk_iterator &y) { return x.state_ == y.state_; }
    friend bool operator!=(const chunk_iterator &x, const chunk_iterator &y) { return !(x == y); }

private:
    struct release {
        void operator()(zc_chunks *chunks) const {
            zc_chunks_free(chunks);
            delete chunks;
        }
    };
    std::shared_ptr<zc_chunks> state_;
};

// The chunks of a cord from a place on, for a range loop.
class chunk_range {
public:
    inline chunk_range(const cord &text, std::uint64_t start);
    chunk_iterator begin() const { return first_; }
    chunk_iterator end() const { return {}; }

private:
    chunk_iterator first_;
};

// A byte string that shares its parts. Copies take O(1), moves nothing.
class cord {
public:
    using value_type = char;
    using size_type = std::uint64_t;
    using difference_type = std::int64_t;
    static constexpr size_type npos = ZC_NOT_FOUND;
    static constexpr size_type max_size() noexcept { return ZC_MAX_LEN; }

    // Goes over bytes, a block of 256 at a time; it shares the cord, so the cord may go before it.
    class const_iterator;
    using iterator = const_iterator;

    cord() noexcept = default;
    cord(std::string_view bytes) { detail::check(zc_from_bytes(bytes.data(), bytes.size(), &handle_)); }
    cord(const char *bytes) : cord(std::string_view(bytes)) {}
    cord(const std::string &bytes) : cord(std::string_view(bytes)) {}
    cord(size_type count, char byte) { detail::check(zc_chars(static_cast<unsigned char>(byte), count, &handle_)); }
    cord(const cord &other) { detail::check(zc_share(other.raw(), &handle_)); }
    cord(cord &&other) noexcept : handle_(std::exchange(other.handle_, zc_cord ZC_EMPTY)) {}
    ~cord() { zc_free(&handle_); }

    cord &operator=(const cord &other) {
        detail::check(zc_share(other.raw(), &handle_));
        return *this;
    }
    cord &operator=(cord &&other) noexcept {
        swap(other);
        return *this;
    }
    void swap(cord &other) noexcept { std::swap(handle_, other.handle_); }
    friend void swap(cord &x, cord &y) noexcept { x.swap(y); }

    // The bytes of a descriptor to its end, and of a file.
    static cord from_fd(int fd) {
        cord made;
        detail::check(zc_from_fd(fd, &made.handle_));
        return made;
    }
    static cord from_file(const std::string &path) {
        cord made;
        detail::check(zc_from_path(path.c_str(), &made.handle_));
        return made;
    }

    size_type size() const noexcept { return zc_len(raw()); }
    size_type length() const noexcept { return size(); }
    bool empty() const noexcept { return size() == 0; }
    unsigned depth() const noexcept { return zc_depth(raw()); }
    void clear() noexcept { zc_free(&handle_); }

    char at(size_type place) const {
        unsigned char byte = 0;
        detail::check(zc_fetch(raw(), place, &byte));
        return static_cast<char>(byte);
    }
    // The byte at a place that is there.
    char operator[](size_type place) const {
        unsigned char byte = 0;
        zc_fetch(raw(), place, &byte);
        return static_cast<char>(byte);
    }
    char front() const { return at(0); }
    char back() const { return at(size() - 1); }

    // The part from a place on: std::out_of_range past the end, as std::string.
    cord substr(size_type start = 0, size_type count = npos) const {
        if (start > size()) detail::check(ZC_PAST_END);
        cord made;
        detail::check(zc_substr(raw(), start, count, &made.handle_));
        return made;
    }
    cord balanced() const {
        cord made;
        detail::check(zc_balance(raw(), &made.handle_));
        return made;
    }

    cord &append(const cord &more) {
        detail::check(zc_append(&handle_, more.raw()));
        return *this;
    }
    cord &append(std::string_view more) {
        detail::check(zc_cat_bytes(raw(), more.data(), more.size(), &handle_));
        return *this;
    }
    cord &append(const char *more) { return append(std::string_view(more)); }
    cord &append(const std::string &more) { return append(std::string_view(more)); }
    void push_back(char byte) { detail::check(zc_cat_char(raw(), static_cast<unsigned char>(byte), &handle_)); }
    cord &append(char byte) {
        push_back(byte);
        return *this;
    }
    template <class T> cord &operator+=(const T &more) { return append(more); }

    cord &insert(size_type place, const cord &more) {
        if (place > size()) detail::check(ZC_PAST_END);
        detail::check(zc_splice(&handle_, place, 0, more.raw()));
        return *this;
    }
    cord &erase(size_type place = 0, size_type count = npos) {
        if (place > size()) detail::check(ZC_PAST_END);
        detail::check(zc_remove(raw(), place, count, &handle_));
        return *this;
    }
    cord &replace(size_type place, size_type count, const cord &more) {
        if (place > size()) detail::check(ZC_PAST_END);
        detail::check(zc_splice(&handle_, place, count, more.raw()));
        return *this;
    }

    size_type find(std::string_view bytes, size_type start = 0) const {
        size_type place = npos;
        detail::check(zc_find(raw(), start, bytes.data(), bytes.size(), &place));
        return place;
    }
    size_type find(const char *bytes, size_type start = 0) const { return find(std::string_view(bytes), start); }
    size_type find(const cord &bytes, size_type start = 0) const {
        size_type place = npos;
        detail::check(zc_str(raw(), start, bytes.raw(), &place));
        return place;
    }
    size_type find(char byte, size_type start = 0) const noexcept {
        size_type place = npos;
        zc_chr(raw(), start, static_cast<unsigned char>(byte), &place);
        return place;
    }
    // The last place that some bytes have at or before a place.
    size_type rfind(std::string_view bytes, size_type last = npos) const {
        size_type place = npos;
        detail::check(zc_rfind(raw(), end_of(last, bytes.size()), bytes.data(), bytes.size(), &place));
        return place;
    }
    size_type rfind(const char *bytes, size_type last = npos) const { return rfind(std::string_view(bytes), last); }
    size_type rfind(const cord &bytes, size_type last = npos) const {
        size_type place = npos;
        detail::check(zc_rstr(raw(), end_of(last, bytes.size()), bytes.raw(), &place));
        return place;
    }
    // The last place of a byte at or before a place.
    size_type rfind(char byte, size_type last = npos) const noexcept {
        size_type place = npos;
        zc_rchr(raw(), last == npos ? last : last + 1, static_cast<unsigned char>(byte), &place);
        return place;
    }
    bool contains(std::string_view bytes) const { return find(bytes) != npos; }
    size_type count(char byte) const noexcept { return zc_count(raw(), static_cast<unsigned char>(byte)); }

    bool starts_with(const cord &other) const { return other.size() <= size() && order(0, other, other.size()) == 0; }
    bool ends_with(const cord &other) const {
        return other.size() <= size() && order(size() - other.size(), other, other.size()) == 0;
    }
    // Less than 0, 0 or more than 0, as std::string's.
    int compare(const cord &other) const {
        std::int32_t found = 0;
        detail::check(zc_cmp(raw(), other.raw(), &found));
        return found;
    }

    // Copies bytes from a place on: how many there were.
    std::size_t copy(char *to, std::size_t count, size_type start = 0) const {
        std::size_t got = 0;
        detail::check(zc_read(raw(), start, to, count, &got));
        return got;
    }
    std::string str() const {
        std::string made(static_cast<std::size_t>(size()), '\0');
        copy(made.data(), made.size());
        return made;
    }
    explicit operator std::string() const { return str(); }
    chunk_range chunks(size_type start = 0) const { return chunk_range(*this, start); }
    void write_to(int fd) const { detail::check(zc_put(raw(), fd)); }

    inline const_iterator begin() const;
    inline const_iterator end() const;
    const_iterator cbegin() const;
    const_iterator cend() const;

    // The handle, for the calls of zomtsje.h.
    const zc_cord *raw() const noexcept { return &handle_; }
    zc_cord *raw() noexcept { return &handle_; }

private:
    // Where bytes end that stand at a place: past all ends where the sum is too big.
    static size_type end_of(size_type place, size_type count) noexcept {
        return place > npos - count ? npos : place + count;
    }
    std::int32_t order(size_type start, const cord &other, size_type count) const {
        std::int32_t found = 0;
        detail::check(zc_ncmp(raw(), start, other.raw(), 0, count, &found));
        return found;
    }
    zc_cord handle_ ZC_EMPTY;
};

// Bytes in both directions and by offsets; a byte is read from a block around it.
class cord::const_iterator {
public:
    using iterator_category = std::random_access_iterator_tag;
    using value_type = char;
    using difference_type = std::int64_t;
    using pointer = const char *;
    using reference = char;

    const_iterator() = default;
    const_iterator(const cord &text, size_type place) : text_(text), place_(place) {}

    char operator*() const {
        if (place_ < start_ || place_ >= start_ + got_) fill(place_ < start_);
        return block_[place_ - start_];
    }
    char operator[](difference_type by) const { return *(*this + by); }
    const_iterator &operator++() { return *this += 1; }
    const_iterator &operator--() { return *this += -1; }
    const_iterator operator++(int) {
        const_iterator old = *this;
        ++*this;
        return old;
    }
    const_iterator operator--(int) {
        const_iterator old = *this;
        --*this;
        return old;
    }
    const_iterator &operator+=(difference_type by) {
        place_ += static_cast<size_type>(by);
        return *this;
    }
    const_iterator &operator-=(difference_type by) { return *this += -by; }
    friend const_iterator operator+(const_iterator it, difference_type by) { return it += by; }
    friend const_iterator operator+(difference_type by, const_iterator it) { return it += by; }
    friend const_iterator operator-(const_iterator it, difference_type by) { return it -= by; }
    friend difference_type operator-(const const_iterator &x, const const_iterator &y) {
        return static_cast<difference_type>(x.place_ - y.place_);
    }
    friend bool operator==(const const_iterator &x, const const_iterator &y) { return x.place_ == y.place_; }
    friend bool operator!=(const const_iterator &x, const const_iterator &y) { return x.place_ != y.place_; }
    friend bool operator<(const const_iterator &x, const const_iterator &y) { return x.place_ < y.place_; }
    friend bool operator>(const const_iterator &x, const const_iterator &y) { return y < x; }
    friend bool operator<=(const const_iterator &x, const const_iterator &y) { return !(y < x); }
    friend bool operator>=(const const_iterator &x, const const_iterator &y) { return !(x < y); }

private:
    // The block that begins at the place; going back, the one that ends with it.
    void fill(bool is_back) const {
        start_ = is_back && place_ >= sizeof block_ - 1 ? place_ - (sizeof block_ - 1) : is_back ? 0 : place_;
        got_ = text_.copy(block_, sizeof block_, start_);
    }
    cord text_;
    size_type place_ = 0;
    mutable size_type start_ = 0;
    mutable std::size_t got_ = 0;
    mutable char block_[256];
};

inline cord::const_iterator cord::begin() const {
    return {*this, 0};
}
inline cord::const_iterator cord::end() const {
    return {*this, size()};
}
inline cord::const_iterator cord::cbegin() const {
    return begin();
}
inline cord::const_iterator cord::cend() const {
    return end();
}

inline chunk_iterator::chunk_iterator(const cord &text, std::uint64_t start) : state_(new zc_chunks(ZC_CHUNKS_EMPTY), release()) {
    detail::check(zc_chunks_set(text.raw(), start, state_.get()));
    ++*this;
}
inline chunk_range::chunk_range(const cord &text, std::uint64_t start) : first_(text, start) {}

inline cord operator+(const cord &x, const cord &y) {
    cord made;
    detail::check(zc_cat(x.raw(), y.raw(), made.raw()));
    return made;
}
inline cord operator+(cord &&x, const cord &y) {
    x += y;
    return std::move(x);
}

inline bool operator==(const cord &x, const cord &y) {
    std::int32_t equal = 0;
    detail::check(zc_equal(x.raw(), y.raw(), &equal));
    return equal != 0;
}
#if __cplusplus >= 202002L
inline std::strong_ordering operator<=>(const cord &x, const cord &y) {
    return x.compare(y) <=> 0;
}
#else
inline bool operator!=(const cord &x, const cord &y) {
    return !(x == y);
}
inline bool operator<(const cord &x, const cord &y) {
    return x.compare(y) < 0;
}
inline bool operator>(const cord &x, const cord &y) {
    return y < x;
}
inline bool operator<=(const cord &x, const cord &y) {
    return !(y < x);
}
inline bool operator>=(const cord &x, const cord &y) {
    return !(x < y);
}
#endif

inline std::ostream &operator<<(std::ostream &to, const cord &text) {
    for (const std::string_view chunk : text.chunks()) to.write(chunk.data(), static_cast<std::streamsize>(chunk.size()));
    return to;
}

// A cord that is made from its beginning to its end: what is added is gathered to leaves of up to 4,096 bytes.
class cord_builder {
public:
    cord_builder() = default;
    cord_builder(const cord_builder &) = delete;
    cord_builder &operator=(const cord_builder &) = delete;
    ~cord_builder() { zc_ext_free(&state_); }

    cord_builder &append(std::string_view bytes) {
        detail::check(zc_ext_bytes(&state_, bytes.data(), bytes.size()));
        return *this;
    }
    cord_builder &append(const char *bytes) { return append(std::string_view(bytes)); }
    cord_builder &append(const std::string &bytes) { return append(std::string_view(bytes)); }
    cord_builder &append(const cord &text) {
        detail::check(zc_ext_cord(&state_, text.raw()));
        return *this;
    }
    cord_builder &append(char byte) {
        detail::check(zc_ext_char(&state_, static_cast<unsigned char>(byte)));
        return *this;
    }
    template <class T> cord_builder &operator<<(const T &more) { return append(more); }
    std::uint64_t size() const noexcept { return zc_ext_len(&state_); }
    // What was added, which stays and may grow further.
    cord build() const {
        cord made;
        detail::check(zc_ext_to_cord(&state_, made.raw()));
        return made;
    }
    void clear() noexcept { zc_ext_free(&state_); }

private:
    mutable zc_ext state_ ZC_EXT_EMPTY;
};

// The lines of a cord by number, from 0, each found without a walk through the text. It shares the cord, and stays its
// index along replace. A line ends with '\n', which the last one may lack.
class line_index {
public:
    using value_type = cord;
    using size_type = std::uint64_t;

    // Goes over the lines, without their ends; each is made when it is asked for.
    class const_iterator {
    public:
        using iterator_category = std::input_iterator_tag;
        using value_type = cord;
        using difference_type = std::int64_t;
        using pointer = void;
        using reference = cord;

        const_iterator(const line_index &lines, size_type number) : lines_(&lines), number_(number) {}
        cord operator*() const { return lines_->line(number_); }
        const_iterator &operator++() {
            ++number_;
            return *this;
        }
        const_iterator operator++(int) {
            const_iterator old = *this;
            ++number_;
            return old;
        }
        friend bool operator==(const const_iterator &x, const const_iterator &y) { return x.number_ == y.number_; }
        friend bool operator!=(const const_iterator &x, const const_iterator &y) { return !(x == y); }

    private:
        const line_index *lines_;
        size_type number_;
    };
    using iterator = const_iterator;

    explicit line_index(cord text = {}) : text_(std::move(text)) { detail::check(zc_lines_set(text_.raw(), &handle_)); }
    line_index(line_index &&other) noexcept : text_(std::move(other.text_)), handle_(std::exchange(other.handle_, zc_lines ZC_LINES_EMPTY)) {}
    line_index &operator=(line_index &&other) noexcept {
        std::swap(text_, other.text_);
        std::swap(handle_, other.handle_);
        return *this;
    }
    ~line_index() { zc_lines_free(&handle_); }

    const cord &text() const noexcept { return text_; }
    size_type size() const noexcept { return zc_lines_count(&handle_); }
    bool empty() const noexcept { return size() == 0; }
    cord line(size_type number) const {
        cord made;
        detail::check(zc_lines_line(&handle_, text_.raw(), number, made.raw()));
        return made;
    }
    cord operator[](size_type number) const { return line(number); }
    // The place where a line begins.
    size_type line_start(size_type number) const {
        size_type place = 0;
        detail::check(zc_lines_start(&handle_, text_.raw(), number, &place));
        return place;
    }
    // The line that holds the byte at a place: at the end how many lines end.
    size_type line_of(size_type place) const {
        size_type number = 0;
        if (place > text_.size()) detail::check(ZC_PAST_END);
        detail::check(zc_lines_of(&handle_, text_.raw(), place, &number));
        return number;
    }
    // How many characters of UTF-8 begin in a range.
    size_type utf8_size(size_type place, size_type count) const {
        size_type chars = 0;
        detail::check(zc_lines_utf8(&handle_, text_.raw(), place, count, &chars));
        return chars;
    }
    void replace(size_type place, size_type count, const cord &more) {
        cord after = text_;
        after.replace(place, count, more);
        become(std::move(after), place, std::min(count, text_.size() - place), more.size());
    }
    const_iterator begin() const { return {*this, 0}; }
    const_iterator end() const { return {*this, size()}; }

private:
    friend class cord_editor;
    // It is the index of the text after an edit from now on.
    void become(cord after, size_type place, size_type removed, size_type inserted) {
        detail::check(zc_lines_edited_from(&handle_, text_.raw(), after.raw(), place, removed, inserted));
        text_ = std::move(after);
    }
    cord text_;
    zc_lines handle_ ZC_LINES_EMPTY;
};

// A cord under edit with all its versions, which share what they have in common.
class cord_editor {
public:
    explicit cord_editor(cord text = {}) : now_(std::move(text)) {}
    cord_editor(const cord_editor &other) : now_(other.now_), done_(other.done_), undone_(other.undone_) {}
    cord_editor(cord_editor &&) noexcept = default;
    cord_editor &operator=(cord_editor other) noexcept {
        now_ = std::move(other.now_);
        done_.swap(other.done_);
        undone_.swap(other.undone_);
        lines_.swap(other.lines_);
        return *this;
    }

    const cord &text() const noexcept { return now_; }
    std::uint64_t size() const noexcept { return now_.size(); }
    void insert(std::uint64_t place, const cord &more) { replace(place, 0, more); }
    void erase(std::uint64_t place, std::uint64_t count) { replace(place, count, {}); }
    void replace(std::uint64_t place, std::uint64_t count, const cord &more) {
        cord next = now_;
        next.replace(place, count, more);
        const std::uint64_t removed = std::min(count, now_.size() - place);
        done_.reserve(done_.size() + 1);
        if (lines_) lines_->become(next, place, removed, more.size());
        undone_.clear();
        done_.push_back({std::exchange(now_, std::move(next)), place, more.size(), removed});
    }
    // Goes back, or forward again, by one edit: whether there was one.
    bool undo() { return step(done_, undone_); }
    bool redo() { return step(undone_, done_); }
    // The lines of the text as it is now. The index is made when it is first asked for, and kept along edits.
    const line_index &lines() const {
        if (!lines_) lines_ = std::make_unique<line_index>(now_);
        return *lines_;
    }

private:
    // A text, and the edit of the one that it takes the place of.
    struct version {
        cord text;
        std::uint64_t place, removed, inserted;
    };
    bool step(std::vector<version> &from, std::vector<version> &to) {
        if (from.empty()) return false;
        version &next = from.back();
        to.reserve(to.size() + 1);
        if (lines_) lines_->become(next.text, next.place, next.removed, next.inserted);
        to.push_back({std::exchange(now_, std::move(next.text)), next.place, next.inserted, next.removed});
        from.pop_back();
        return true;
    }
    cord now_;
    std::vector<version> done_, undone_;
    mutable std::unique_ptr<line_index> lines_;
};

// The files that lazy cords have parts in. It outlives the lazy cords that are read over it.
class file_set {
public:
    file_set() = default;
    file_set(const file_set &) = delete;
    file_set &operator=(const file_set &) = delete;
    ~file_set() { zc_files_free(&files_); }

    // The bytes of a file, of which nothing is read now; with is_short_read a file of up to 131,072 bytes is read and
    // closed.
    inline lazy_cord open(const std::string &path, bool is_short_read = false);
    zc_files *raw() noexcept { return &files_; }

private:
    zc_files files_ ZC_FILES_NONE;
};

// A cord that may have parts in the files of a file_set. Cuts and joins read nothing.
class lazy_cord {
public:
    lazy_cord(file_set &files, const cord &text) : files_(&files) { detail::check(zc_lazy_from_cord(text.raw(), &handle_)); }
    lazy_cord(const lazy_cord &other) : files_(other.files_) { detail::check(zc_lazy_share(&other.handle_, &handle_)); }
    lazy_cord(lazy_cord &&other) noexcept : files_(other.files_), handle_(std::exchange(other.handle_, zc_lazy ZC_LAZY_EMPTY)) {}
    ~lazy_cord() { zc_lazy_free(&handle_); }
    lazy_cord &operator=(lazy_cord other) noexcept {
        std::swap(files_, other.files_);
        std::swap(handle_, other.handle_);
        return *this;
    }

    std::uint64_t size() const noexcept { return zc_lazy_len(&handle_); }
    lazy_cord substr(std::uint64_t start = 0, std::uint64_t count = cord::npos) const {
        lazy_cord made(*files_);
        detail::check(zc_lazy_substr(&handle_, start, count, &made.handle_));
        return made;
    }
    lazy_cord &operator+=(const lazy_cord &more) {
        detail::check(zc_lazy_cat(&handle_, &more.handle_, &handle_));
        return *this;
    }
    // With the bytes of another cord in place of some.
    lazy_cord &replace(std::uint64_t place, std::uint64_t count, const cord &more) {
        const lazy_cord with(*files_, more);
        detail::check(zc_lazy_replace(&handle_, place, count, &with.handle_, &handle_));
        return *this;
    }
    std::uint64_t find(std::string_view bytes, std::uint64_t start = 0) const {
        std::uint64_t place = cord::npos;
        detail::check(zc_lazy_find(files_->raw(), &handle_, start, bytes.data(), bytes.size(), &place));
        return place;
    }
    // The last place of a byte before a place.
    std::uint64_t rfind(char byte, std::uint64_t end = cord::npos) const {
        std::uint64_t place = cord::npos;
        detail::check(zc_lazy_rchr(files_->raw(), &handle_, end, static_cast<unsigned char>(byte), &place));
        return place;
    }
    std::size_t copy(char *to, std::size_t count, std::uint64_t start = 0) const {
        std::size_t got = 0;
        detail::check(zc_lazy_read(files_->raw(), &handle_, start, to, count, &got));
        return got;
    }
    cord in_memory() const {
        cord made;
        detail::check(zc_lazy_to_cord(files_->raw(), &handle_, made.raw()));
        return made;
    }
    void write_to(int fd) const { detail::check(zc_lazy_put(files_->raw(), &handle_, fd)); }

private:
    friend class file_set;
    explicit lazy_cord(file_set &files) : files_(&files) {}
    file_set *files_;
    zc_lazy handle_ ZC_LAZY_EMPTY;
};

inline lazy_cord file_set::open(const std::string &path, bool is_short_read) {
    lazy_cord made(*this);
    auto from_path = is_short_read ? zc_lazy_by_length : zc_lazy_from_path;
    detail::check(from_path(&files_, path.c_str(), &made.handle_));
    return made;
}

} // namespace zomtsje

template <> struct std::hash<zomtsje::cord> {
    // Of the bytes alone, so that equal cords have one hash, however their trees are.
    std::size_t operator()(const zomtsje::cord &text) const noexcept {
        return static_cast<std::size_t>(zc_hash(text.raw()));
    }
};

#endif
