// start.cpp - the library from C++: what a task declares and where it begins, and how large the task is that a solver is given for it.
//
//   c++ -std=c++17 examples/start.cpp $(pkg-config --cflags --libs ruphenqo) -o start
//   start TASK
#include <ruphenqo.h>
#include <cstdlib>
#include <fstream>
#include <iostream>
#include <iterator>
#include <string>
#include <vector>

using Bytes = std::vector<uint8_t>;

// The library wants a pointer that is not null, which an empty vector need not have.
static uint8_t none;
static uint8_t *at(Bytes &bytes) { return bytes.empty() ? &none : bytes.data(); }

// The place is taken by reference: it is read behind the call that stores it.
static void taken(const char *what, uint32_t number, const uint64_t &place)
{
    if (number == RUPHENQO_OK)
        return;
    uint8_t text[80];
    uint64_t length = 0, needed;
    ruphenqo_refusal_text(number, text, sizeof text, &length, &needed);
    std::cerr << what << " refused: " << std::string(text, text + length) << " (" << number << " at " << place << ")\n";
    std::exit(1);
}

static void print_source(Bytes &task)
{
    uint64_t counts[3], place = 0;
    int64_t values[RUPHENQO_SOURCE_VARIABLES], lower[RUPHENQO_SOURCE_VARIABLES], upper[RUPHENQO_SOURCE_VARIABLES];
    uint16_t modes[RUPHENQO_SOURCE_MODES], sizes[RUPHENQO_SOURCE_MODES];
    taken("task", ruphenqo_read_source(at(task), task.size(), counts, &place), place);
    taken("task", ruphenqo_source_start(at(task), task.size(), values, modes, lower, upper, sizes, &place), place);
    for (uint64_t i = 0; i < counts[0]; i++)
        std::cout << "variable " << i << ": " << values[i] << ", from " << lower[i] << " to " << upper[i] << '\n';
    for (uint64_t i = 0; i < counts[1]; i++)
        std::cout << "mode " << i << ": " << modes[i] << ", below " << sizes[i] << '\n';
    std::cout << "actions: " << counts[2] << '\n';
}

// A call that writes is asked twice: with no room, for the bytes that it needs, and then with as many.
static Bytes lowered(Bytes &task)
{
    uint64_t length = 0, place = 0;
    Bytes out;
    uint32_t number = ruphenqo_lower(at(task), task.size(), &none, 0, &length, &place);
    if (number == RUPHENQO_NO_SPACE) {
        out.resize(place);
        number = ruphenqo_lower(at(task), task.size(), at(out), out.size(), &length, &place);
    }
    taken("task", number, place);
    return out;
}

static void print_restricted(Bytes &task)
{
    uint64_t counts[3], place = 0;
    int64_t values[RUPHENQO_RESTRICTED_VARIABLES];
    uint16_t modes[RUPHENQO_RESTRICTED_MODES];
    taken("lowered task", ruphenqo_read_restricted(at(task), task.size(), counts, &place), place);
    taken("lowered task", ruphenqo_restricted_start(at(task), task.size(), values, modes, &place), place);
    std::cout << "lowered: " << task.size() << " bytes, " << counts[2] << " actions; variables";
    for (uint64_t i = 0; i < counts[0]; i++)
        std::cout << ' ' << values[i];
    std::cout << "; modes";
    for (uint64_t i = 0; i < counts[1]; i++)
        std::cout << ' ' << modes[i];
    std::cout << '\n';
}

int main(int count, char **words)
{
    std::ifstream file(count == 2 ? words[1] : "", std::ios::binary);
    if (!file) {
        std::cerr << "start TASK\n";
        return 2;
    }
    Bytes task{std::istreambuf_iterator<char>(file), {}};
    if (ruphenqo_version() / 10000 != RUPHENQO_VERSION / 10000)
        std::cerr << "this program was compiled for another version of the library\n";
    print_source(task);
    Bytes restricted = lowered(task);
    print_restricted(restricted);
}
