/*
 * A C++ program on the library: a class that owns it, threads that share it, and names that are listed. Takes the file
 * of the locale sources, examples/two_users.bundle. Ends with status 0 where all is as wanted.
 */
#include "locale_objects.h"
#include <cstring>
#include <fstream>
#include <iostream>
#include <iterator>
#include <memory>
#include <stdexcept>
#include <string>
#include <thread>
#include <vector>

struct Frees {
    void operator()(lobj_library *library) const { lobj_library_free(library); }
};

using Library = std::unique_ptr<lobj_library, Frees>;

static void require(lobj_answer answer) {
    if (answer.code != LOBJ_OK) throw std::runtime_error(lobj_strerror(answer.code));
}

static Library read_library(const std::string &text) {
    lobj_library *library = nullptr;
    lobj_fault fault = { 0, 0, 0, 0, 0, 0 };
    char line[128];
    require(lobj_read(text.data(), text.size(), &library, &fault, line, sizeof line));
    return Library(library);
}

static lobj_locale named(const Library &library, const std::string &name) {
    lobj_locale locale;
    lobj_posix_locale(library.get(), &locale);
    require(lobj_newlocale(library.get(), LOBJ_ALL_MASK, name.data(), name.size(), locale, &locale));
    return locale;
}

static std::string amount(const Library &library, const lobj_locale &locale, double value) {
    lobj_amount given = { 0, 0 };
    if (!lobj_amount_of_double(value, 2, &given)) throw std::runtime_error("no amount");
    const lobj_answer needed = lobj_strfmon(nullptr, 0, library.get(), locale, "%n", 2, &given, 1);
    if (needed.code != LOBJ_TOO_SMALL) throw std::runtime_error("no size");
    std::vector<char> buffer(needed.n);
    require(lobj_strfmon(buffer.data(), buffer.size(), library.get(), locale, "%n", 2, &given, 1));
    return buffer.data();
}

static std::vector<std::string> names(const Library &library) {
    std::vector<std::string> found;
    char name[256];
    for (uint32_t i = 1; lobj_library_name(name, sizeof name, library.get(), i).code == LOBJ_OK; i++) found.push_back(name);
    return found;
}

int main(int count, char **words) {
    if (count != 2) return 2;
    std::ifstream file(words[1], std::ios::binary);
    const std::string text((std::istreambuf_iterator<char>(file)), std::istreambuf_iterator<char>());
    const Library library = read_library(text);
    const std::string wanted = amount(library, named(library, "en_US"), 1234567.89);
    std::vector<std::string> found(16);
    std::vector<std::thread> threads;
    for (auto &own : found) {
        threads.emplace_back([&own, &library] { own = amount(library, named(library, "en_US"), 1234567.89); });
    }
    for (auto &thread : threads) thread.join();
    for (const auto &own : found) {
        if (own != wanted) return 1;
    }
    try {
        named(library, "nowhere");
        return 1;
    } catch (const std::runtime_error &) {
    }
    std::cout << wanted;
    for (const auto &name : names(library)) std::cout << ' ' << name;
    std::cout << '\n';
    return wanted == "$1,234,567.89" ? 0 : 1;
}
