// Tests of zomtsje.hpp. Each row says what it expects, of std::string where it has the same; the first that fails
// ends the program with status 1.
#include <zomtsje.hpp>

#include <cstdio>
#include <cstdlib>
#include <fcntl.h>
#include <iostream>
#include <numeric>
#include <set>
#include <sstream>
#include <unistd.h>
#include <unordered_map>

using zomtsje::cord;
using zomtsje::cord_builder;
using zomtsje::cord_editor;
using zomtsje::file_set;
using zomtsje::lazy_cord;
using zomtsje::line_index;

static unsigned long rows = 0;

static void expect(bool holds, const char *what, int line) {
    rows++;
    if (holds) return;
    std::fprintf(stderr, "line %d: %s\n", line, what);
    std::exit(1);
}
#define EXPECT(holds) expect((holds), #holds, __LINE__)

template <class Error, class Call> static bool throws(Call call) {
    try {
        call();
    } catch (const Error &) {
        return true;
    }
    return false;
}

static void values() {
    cord none, one = "one", zero(std::string_view("a\0b", 3));
    EXPECT(none.empty() && none.size() == 0 && none.str().empty() && none == cord());
    EXPECT(one.size() == 3 && one.str() == "one" && std::string(one) == "one" && one[1] == 'n' && one.at(2) == 'e');
    EXPECT(zero.size() == 3 && zero.str() == std::string("a\0b", 3) && zero.front() == 'a' && zero.back() == 'b');
    cord copy = one;
    copy += "!";
    EXPECT(copy == "one!" && one == "one");
    cord moved = std::move(copy);
    EXPECT(moved == "one!" && copy.empty());
    copy = moved;
    const cord &same = copy;
    copy = same;
    EXPECT(copy == moved);
    swap(one, moved);
    EXPECT(one == "one!" && moved == "one");
    moved = std::move(one);
    EXPECT(moved == "one!");
    moved.clear();
    EXPECT(moved.empty());
    EXPECT(cord(5, 'x') == "xxxxx" && cord(cord::max_size(), 'x').size() == cord::max_size());
    EXPECT(throws<std::length_error>([] { cord(cord::max_size() + 1, 'x'); }));
    EXPECT(throws<std::length_error>([] { cord(cord::max_size(), 'x') += 'y'; }));
    EXPECT(throws<std::out_of_range>([] { cord("abc").at(3); }));
    EXPECT(throws<std::out_of_range>([] { cord().back(); }));
}

static void edits() {
    cord x = "the quick fox";
    std::string y = "the quick fox";
    EXPECT(x.substr(4, 5) == y.substr(4, 5) && x.substr(4) == y.substr(4) && x.substr(13).empty());
    EXPECT(throws<std::out_of_range>([&] { x.substr(14); }));
    EXPECT(x.insert(10, "brown ") == y.insert(10, "brown ") && x.erase(0, 4) == y.erase(0, 4));
    EXPECT(x.replace(0, 5, "slow") == y.replace(0, 5, "slow") && x == "slow brown fox");
    EXPECT(throws<std::out_of_range>([&] { x.insert(15, "z"); }) && throws<std::out_of_range>([&] { x.erase(15); }));
    EXPECT(x.insert(14, "!") == "slow brown fox!" && x.erase(14) == "slow brown fox");
    EXPECT(x + "." == "slow brown fox." && "a " + x == "a slow brown fox" && cord("a") + cord("b") + "c" == "abc");
    x += x;
    EXPECT(x.size() == 28 && x.balanced() == x);
    x.insert(3, x).replace(0, 50, x);
    EXPECT(x.size() == 62);
    x.push_back('\0');
    EXPECT(x.size() == 63 && x.back() == '\0');
}

static void searches() {
    const cord x = "abcabcabd";
    const std::string y = "abcabcabd";
    EXPECT(x.find("abd") == y.find("abd") && x.find("abc", 1) == y.find("abc", 1) && x.find("x") == cord::npos);
    EXPECT(x.find('c', 3) == y.find('c', 3) && x.rfind('c') == y.rfind('c') && x.rfind('c', 5) == y.rfind('c', 5));
    EXPECT(x.rfind("c") == y.rfind("c") && x.rfind("bc", 4) == y.rfind("bc", 4) && x.rfind("") == y.rfind(""));
    EXPECT(x.rfind(cord("bc")) == y.rfind("bc") && x.rfind("zz") == cord::npos && x.rfind("", 2) == y.rfind("", 2));
    EXPECT(x.rfind('c', 4) == y.rfind('c', 4) && x.rfind('c', 1) == cord::npos && x.find("") == 0);
    EXPECT(x.find(cord("bd")) == 7 && x.contains("cab") && !x.contains("cc") && x.count('a') == 3);
    EXPECT(x.starts_with("abc") && !x.starts_with("bc") && x.starts_with("") && x.starts_with(x) && !x.starts_with(x + "!"));
    EXPECT(x.ends_with("abd") && !x.ends_with("abc") && x.ends_with("") && x.ends_with(x) && !x.ends_with("!" + x));
}

static void orders() {
    const cord x = "abc", y = "abd", z = "ab", high = "\xff";
    EXPECT(x == "abc" && x != y && x < y && y > x && z < x && x <= x && x >= z && high > y);
    EXPECT(x.compare(y) < 0 && y.compare(x) > 0 && x.compare("abc") == 0);
    EXPECT((std::set<cord>{y, x, z, x}.size() == 3));
    std::unordered_map<cord, int> numbers{{x, 1}, {y, 2}};
    EXPECT(numbers.at("ab" + cord("c")) == 1 && numbers.at("abd") == 2 && numbers.count("ab") == 0);
    EXPECT(std::hash<cord>()(cord("ab") + cord(std::string(100, 'c'))) == std::hash<cord>()("ab" + std::string(100, 'c')));
    EXPECT(std::hash<cord>()("") == UINT64_C(14695981039346656037) && std::hash<cord>()("a") == UINT64_C(0xaf63dc4c8601ec8c));
#if __cplusplus >= 202002L
    EXPECT((x <=> y) == std::strong_ordering::less);
#endif
}

static void iterations() {
    std::string y;
    for (int i = 0; i < 10000; i++) y += static_cast<char>(i % 251);
    const cord x = cord(std::string_view(y).substr(0, 5000)) + std::string_view(y).substr(5000);
    EXPECT(std::string(x.begin(), x.end()) == y && std::equal(x.cbegin(), x.cend(), y.begin(), y.end()));
    std::string back, joined;
    for (auto it = x.end(); it != x.begin();) back += *--it;
    EXPECT(back == std::string(y.rbegin(), y.rend()));
    EXPECT(x.end() - x.begin() == 10000 && x.begin()[7000] == y[7000] && *(x.begin() + 300) == y[300]);
    EXPECT(std::find(x.begin(), x.end(), '\xfa') - x.begin() == 250 && x.begin() < x.end());
    for (const std::string_view chunk : x.chunks()) joined += chunk;
    EXPECT(joined == y);
    joined.clear();
    for (const std::string_view chunk : x.chunks(9990)) joined += chunk;
    EXPECT(joined == y.substr(9990));
    for (const std::string_view chunk : cord().chunks()) EXPECT(chunk.empty());
    std::ostringstream printed;
    printed << x << '|' << cord();
    EXPECT(printed.str() == y + "|");
    auto first = cord("gone").begin();
    EXPECT(*first == 'g' && *++first == 'o');
}

static void builders() {
    cord_builder made;
    EXPECT(made.size() == 0 && made.build().empty());
    made << "one " << cord("two ") << 'x' << std::string(5000, 'y');
    EXPECT(made.size() == 5009 && made.build() == "one two x" + std::string(5000, 'y'));
    made.append("!");
    EXPECT(made.build().back() == '!' && made.size() == 5010);
    made.clear();
    EXPECT(made.size() == 0);
}

static void editors() {
    cord_editor editor("one three");
    editor.insert(4, "two ");
    editor.erase(0, 4);
    EXPECT(editor.text() == "two three" && editor.undo() && editor.text() == "one two three");
    EXPECT(editor.undo() && editor.text() == "one three" && !editor.undo());
    EXPECT(editor.redo() && editor.redo() && !editor.redo() && editor.text() == "two three" && editor.size() == 9);
    EXPECT(editor.undo());
    editor.replace(0, 3, "1");
    EXPECT(editor.text() == "1 two three" && !editor.redo());
    EXPECT(throws<std::out_of_range>([&] { editor.insert(99, "x"); }) && editor.undo() && editor.text() == "one two three");
}

static void lines() {
    line_index lines("one\n\ntw\xc3\xb3\nlast");
    const std::vector<cord> wanted{"one", "", "tw\xc3\xb3", "last"};
    EXPECT(lines.size() == 4 && std::equal(lines.begin(), lines.end(), wanted.begin(), wanted.end()));
    EXPECT(lines[3] == "last" && lines.line_start(3) == 10 && lines.line_of(9) == 2 && lines.line_of(14) == 3);
    EXPECT(lines.utf8_size(5, 5) == 4 && lines.utf8_size(5, ZC_MAX_LEN) == 8);
    EXPECT(throws<std::out_of_range>([&] { lines.line(4); }) && throws<std::out_of_range>([&] { lines.line_start(4); }));
    EXPECT(throws<std::out_of_range>([&] { lines.line_of(15); }) && throws<std::out_of_range>([&] { lines.replace(15, 0, "x"); }));
    lines.replace(3, 2, " and ");
    lines.replace(12, 99, "\n");
    EXPECT(lines.text() == "one and tw\xc3\xb3\n" && lines.size() == 1 && lines.line(0) == "one and tw\xc3\xb3");
    line_index moved = std::move(lines);
    EXPECT(moved.size() == 1 && lines.empty() && line_index().begin() == line_index().end());
    lines = std::move(moved);
    EXPECT(lines.size() == 1);
    cord many;
    for (int i = 0; i < 15; i++) many = i == 0 ? cord("a line\n") : many + many;
    cord_editor editor(many);
    EXPECT(editor.lines().size() == 16384 && editor.lines().line_of(70001) == 10000);
    editor.insert(70001, "\n");
    editor.erase(7, 69995);
    EXPECT(editor.lines().size() == 6385 && editor.lines().line_start(1) == 7 && editor.lines()[1] == " line");
    const cord_editor copied = editor;
    EXPECT(editor.undo() && editor.lines().size() == 16385 && editor.lines()[10001] == " line");
    EXPECT(editor.undo() && editor.lines().size() == 16384 && editor.lines().text() == many);
    EXPECT(editor.redo() && editor.redo() && editor.lines().size() == 6385 && copied.lines().size() == 6385);
}

static std::string make_file(const std::string &bytes) {
    char path[] = "/tmp/zomtsje_cpp_XXXXXX";
    const int fd = mkstemp(path);
    EXPECT(fd >= 0 && write(fd, bytes.data(), bytes.size()) == static_cast<ssize_t>(bytes.size()) && close(fd) == 0);
    return path;
}

static void files() {
    std::string bytes(200000, '.');
    bytes.replace(150000, 4, "here");
    const std::string path = make_file(bytes), copy = make_file("");
    EXPECT(cord::from_file(path) == bytes);
    EXPECT(throws<std::system_error>([] { cord::from_file("/tmp/zomtsje_none"); }));
    EXPECT(throws<std::system_error>([] { cord::from_fd(-1); }) && throws<std::system_error>([] { cord("x").write_to(-1); }));
    file_set set;
    lazy_cord x = set.open(path), shared = x;
    EXPECT(x.size() == 200000 && x.find("here") == 150000 && x.find("there") == cord::npos);
    x.replace(150000, 4, "there").replace(0, 1, "").replace(x.size(), 9, "!");
    EXPECT(x.size() == 200001 && x.find("there") == 149999 && x.substr(149999, 5).in_memory() == "there");
    EXPECT(shared.in_memory() == bytes && x.substr(x.size() - 2).in_memory() == ".!" && x.substr(999999).size() == 0);
    const int fd = open(copy.c_str(), O_RDWR);
    x.write_to(fd);
    EXPECT(lseek(fd, 0, SEEK_SET) == 0 && cord::from_fd(fd) == x.in_memory() && close(fd) == 0);
    EXPECT(set.open(copy, true).size() == 200001 && throws<std::system_error>([&] { set.open("/tmp"); }));
    shared = std::move(x);
    EXPECT(shared.find("!") == 200000 && unlink(path.c_str()) == 0 && unlink(copy.c_str()) == 0);
}

int main() {
    values();
    edits();
    searches();
    orders();
    iterations();
    builders();
    editors();
    lines();
    files();
    std::printf("%lu rows\n", rows);
}
