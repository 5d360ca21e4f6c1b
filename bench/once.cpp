// One call of one proved entry, so that callgrind counts its instructions: `once tables|report|build|read|write ROW`. Prints the size of that row.
#include "ours.h"
#include <cstdio>
#include <cstdlib>
#include <cstring>
#include <iterator>

int main(int count, char **words) {
    int row = count == 3 ? std::atoi(words[2]) : -1;
    auto asked = [&](const char *entry) { return count == 3 && !std::strcmp(words[1], entry); };
    bool building = asked("build");
    if (row < 0 || row >= (int)(building ? std::size(graph_sizes) : std::size(set_sizes))) return 2;
    const Size &size = building ? graph_sizes[row] : set_sizes[row];
    Set s = make_set(size, 0);
    vector<uint8_t> out(most_bytes);
    auto entry = building ? our_build : asked("report") ? our_report : asked("read") ? our_read : asked("write") ? our_write : our_tables;
    size_t length = entry(s, out.data());
    std::printf("%s\n", label(size).c_str());
    return length == 0;
}
