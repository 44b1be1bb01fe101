/* The runner of Flarebutton, for C. The archive is made by `rt lib` in crates/runner_c: out/librunner_c.a there, for x86-64-v2.
 * examples/embed.sh copies it to target/staticlib/librunner.a and links that. */
#ifndef FLAREBUTTON_H
#define FLAREBUTTON_H

#include <stddef.h>
#include <stdint.h>

#ifdef __cplusplus
extern "C" {
#endif

/* The most that is printed, in bytes: a line for the opening and 4,096 for the calls, each of at most 36 bytes. */
#define FLAREBUTTON_OUTPUT 147492

/* One byte more than a run file may have. A buffer of this size is enough for any file: a longer one is refused whatever follows. */
#define FLAREBUTTON_INPUT 65537

/* Runs the run file `input`, and puts what the runner prints on it at the start of `output`. Returns how many bytes that is.
 * What a run file is, and what the answers mean: README.md.
 *
 * Any bytes are taken as input. They, and nothing else, decide what is put: there is no state from one call to the next, and a bad
 * file is answered by a line as any other. It may be called from several threads at once, each with its own output. The bytes of `output` after those returned are left as they were.
 *
 * An output of fewer than FLAREBUTTON_OUTPUT bytes is refused: 0 is returned and nothing is written. No run returns 0 otherwise.
 *
 * The caller sees to it that the pointers are not null and hold for the lengths given, that the two do not overlap, that nothing else
 * touches them during the call, and that 1 MB of stack is free. */
size_t runner_run(const uint8_t *input, size_t input_length, uint8_t *output, size_t output_length);

#ifdef __cplusplus
}
#endif

#endif
