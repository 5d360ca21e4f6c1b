#include "ours.h"
#include <cstdio>
#include <cstdlib>

static size_t accepted(uint64_t answer) {
    if (BURNISHPEG_REFUSED(answer)) {
        std::fprintf(stderr, "refused %u at %u\n", BURNISHPEG_NUMBER(answer), BURNISHPEG_PLACE(answer));
        std::exit(1);
    }
    return answer;
}

size_t our_tables(const Set &s, uint8_t *out) { return accepted(burnishpeg_tables(s.file.data(), s.file.size(), out, most_bytes)); }

size_t our_report(const Set &s, uint8_t *out) { return accepted(burnishpeg_report(s.file.data(), s.file.size(), out, most_bytes)); }

size_t our_build(const Set &graph, uint8_t *out) {
    return accepted(burnishpeg_build(graph.file.data(), graph.file.size(), cap, out, most_bytes));
}

size_t our_read(const Set &s, uint8_t *) {
    static uint8_t a[128], b[128], homes[32];
    static uint16_t weights[128], rows[4096];
    return accepted(burnishpeg_read(s.file.data(), s.file.size(), a, 128, b, 128, weights, 128, homes, 32, rows, 4096));
}

size_t our_write(const Set &s, uint8_t *out) {
    return accepted(burnishpeg_write(s.n, s.m, s.k, s.wmax, s.a.data(), s.a.size(), s.b.data(), s.b.size(), s.weights.data(), s.weights.size(),
                                     s.homes.data(), s.homes.size(), s.rows.data(), s.rows.size(), out, most_bytes));
}

size_t our_run(const Set &s, uint8_t *out) {
    uint8_t trail[BURNISHPEG_LONGEST_TRAIL];
    return accepted(burnishpeg_run(s.file.data(), s.file.size(), 0, s.n / 2, 0, 0, out, most_bytes, trail, sizeof trail));
}
