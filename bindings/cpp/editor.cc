// The core of an editor that keeps every version of a file, which is opened lazily.
//
//     editor FILE < COMMANDS
//
// A command a line: 'i PLACE TEXT' inserts, 'd PLACE COUNT' deletes, 'f TEXT' tells where the text stands first, 'u'
// takes the last change back, 'w PLACE' shows the lines around a place, 's PATH' saves under another name.
#include <fcntl.h>
#include <iostream>
#include <sstream>
#include <unistd.h>
#include <zomtsje.hpp>

using zomtsje::cord, zomtsje::lazy_cord;

static void save(const lazy_cord &text, const std::string &path) {
    const int fd = open(path.c_str(), O_WRONLY | O_CREAT | O_TRUNC | O_CLOEXEC, 0666);
    if (fd < 0) throw std::system_error(errno, std::generic_category(), path);
    text.write_to(fd);
    if (close(fd) != 0) throw std::system_error(errno, std::generic_category(), path);
}

// The line of the place, with the one before and the one after.
static void show(const lazy_cord &text, std::uint64_t place) {
    std::uint64_t start = place, end = place;
    for (int i = 0; i < 2 && start > 0; i++) start = text.rfind('\n', start - (i > 0)) + 1;
    for (int i = 0; i < 2 && end < text.size(); i++) {
        const std::uint64_t line = text.find("\n", end);
        end = line == cord::npos ? text.size() : line + 1;
    }
    std::cout << std::flush;
    text.substr(start, end - start).write_to(STDOUT_FILENO);
}

static void run(std::vector<lazy_cord> &versions, const std::string &line) {
    std::istringstream words(line);
    std::uint64_t place = 0, count = 0;
    std::string command, rest;
    words >> command;
    if (command == "i" && words >> place && std::getline(words >> std::ws, rest)) {
        versions.push_back(lazy_cord(versions.back()).replace(place, 0, rest));
    } else if (command == "d" && words >> place >> count) {
        versions.push_back(lazy_cord(versions.back()).replace(place, count, ""));
    } else if (command == "f" && line.size() > 2) {
        const std::uint64_t found = versions.back().find(line.substr(2));
        std::cout << (found == cord::npos ? "not found" : std::to_string(found)) << '\n';
    } else if (command == "w" && words >> place) {
        show(versions.back(), place);
    } else if (command == "s" && line.size() > 2) {
        save(versions.back(), line.substr(2));
    } else if (command == "u" && versions.size() > 1) {
        versions.pop_back();
    } else {
        std::cout << "?\n";
    }
}

int main(int words, char **word) {
    if (words != 2) {
        std::cerr << "usage: editor FILE\n";
        return 2;
    }
    try {
        zomtsje::file_set files;
        std::vector<lazy_cord> versions{files.open(word[1])};
        for (std::string line; std::getline(std::cin, line);) run(versions, line);
    } catch (const std::exception &error) {
        std::cerr << "editor: " << error.what() << '\n';
        return 1;
    }
}
