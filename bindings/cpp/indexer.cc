// Finds a word in a log, which is opened lazily: the place and the text of each line that has it.
//
//     indexer LOG WORD
#include <iostream>
#include <zomtsje.hpp>

using zomtsje::cord, zomtsje::lazy_cord;

static void list(const lazy_cord &log, const std::string &word) {
    std::uint64_t end = 0, lines = 0, place;
    for (; (place = log.find(word, end)) != cord::npos; lines++) {
        const std::uint64_t before = log.rfind('\n', place), after = log.find("\n", place);
        const std::uint64_t begin = before == cord::npos ? 0 : before + 1;
        end = after == cord::npos ? log.size() : after;
        std::cout << begin << ' ' << log.substr(begin, end - begin).in_memory() << '\n';
    }
    std::cout << lines << " lines\n";
}

int main(int words, char **word) {
    if (words != 3) {
        std::cerr << "usage: indexer LOG WORD\n";
        return 2;
    }
    try {
        zomtsje::file_set files;
        list(files.open(word[1]), word[2]);
    } catch (const std::exception &error) {
        std::cerr << "indexer: " << error.what() << '\n';
        return 1;
    }
}
