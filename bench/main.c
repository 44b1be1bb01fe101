/* PROGRAM R <FILE: runs a run file R times, and prints what the last run put. RUN is the runner's name. */
#include <stdio.h>
#include <stdlib.h>
#include "flarebutton.h"
size_t RUN(const uint8_t *, size_t, uint8_t *, size_t);
static uint8_t input[FLAREBUTTON_INPUT], output[FLAREBUTTON_OUTPUT];

int main(int count, char **words) {
    size_t length = fread(input, 1, sizeof input, stdin), put = 0;
    for (long runs = count == 2 ? atol(words[1]) : 1; 0 < runs; runs--) put = RUN(input, length, output, sizeof output);
    return fwrite(output, 1, put, stdout) == put ? 0 : 1;
}
