/* Runs the run file that its argument names, through the proved runner, and prints what that puts. */
#include <stdio.h>

#include "flarebutton.h"

static uint8_t input[FLAREBUTTON_INPUT];
static uint8_t output[FLAREBUTTON_OUTPUT];

int main(int count, char **words)
{
    if (count != 2) {
        fprintf(stderr, "usage: embed FILE\n");
        return 2;
    }
    FILE *file = fopen(words[1], "rb");
    if (file == NULL) {
        perror(words[1]);
        return 1;
    }
    size_t length = fread(input, 1, sizeof input, file);
    if (ferror(file)) {
        perror(words[1]);
        return 1;
    }
    fclose(file);
    size_t put = runner_run(input, length, output, sizeof output);
    return fwrite(output, 1, put, stdout) == put ? 0 : 1;
}
