// Makes a report of a file of lines NAME NUMBER: a table with the total in front.
//
//     report FILE
#include <iomanip>
#include <iostream>
#include <sstream>
#include <zomtsje.hpp>

using zomtsje::cord;

static cord row(const std::string &name, long long value) {
    std::ostringstream made;
    made << std::left << std::setw(12) << name << '|' << std::right << std::setw(8) << value << '\n';
    return made.str();
}

static cord report(const cord &text) {
    zomtsje::cord_builder rows;
    long long total = 0;
    for (std::uint64_t begin = 0, end; begin < text.size(); begin = end + 1) {
        end = std::min(text.find('\n', begin), text.size());
        const std::uint64_t space = text.find(' ', begin);
        const long long value = std::stoll(text.substr(space + 1, end - space - 1).str());
        rows << row(text.substr(begin, space - begin).str(), value);
        total += value;
    }
    return row("total", total) + rows.build();
}

int main(int words, char **word) {
    if (words != 2) {
        std::cerr << "usage: report FILE\n";
        return 2;
    }
    try {
        std::cout << report(cord::from_file(word[1]));
    } catch (const std::exception &error) {
        std::cerr << "report: " << error.what() << '\n';
        return 1;
    }
}
