/* The report of a set's file from standard input, by the library for C. Build and run: examples/c/run < examples/line.set */
#include "burnishpeg.h"
#include <stdio.h>

int main(void) {
    static uint8_t file[BURNISHPEG_LONGEST_FILE + 1], text[BURNISHPEG_LONGEST_REPORT];
    size_t length = fread(file, 1, sizeof file, stdin);
    uint64_t answer = burnishpeg_report(file, length, text, sizeof text);
    if (BURNISHPEG_REFUSED(answer)) {
        printf("refused %u at %u\n", BURNISHPEG_NUMBER(answer), BURNISHPEG_PLACE(answer));
        return 1;
    }
    fwrite(text, 1, answer, stdout);
    return 0;
}
