/* Reads a case file from standard input, or from the file named as argument, and writes it again or prints its refusal (Case file, K2). */
#include "arvadush.h"
#include "streams.h"

static uint8_t file[ARVADUSH_FILE], out[ARVADUSH_FILE];
static int16_t means[ARVADUSH_DAYS + 3];
static uint32_t weights[ARVADUSH_DAYS];
static uint8_t marks[ARVADUSH_BOUNDARIES];
static uint64_t counts[ARVADUSH_BOUNDARIES];

int main(int argc, char **argv)
{
    size_t length = read_input(argc, argv, file, sizeof file);
    arvadush_outcome outcome =
        arvadush_read(file, length, weights, ARVADUSH_DAYS, marks, ARVADUSH_BOUNDARIES, counts, ARVADUSH_BOUNDARIES);
    if (outcome.number == 0) {
        size_t n = outcome.value;
        /* Byte 0 is the profile, byte 1 the weekday. The means begin at byte 4, each with its low byte first. */
        for (size_t i = 0; i < n + 3; i++)
            means[i] = (int16_t)(file[4 + 2 * i] + 256 * file[5 + 2 * i]);
        outcome = arvadush_write(file[0], file[1], means, n + 3, marks, n + 1, counts, n + 1, out, sizeof out);
    }
    print(out, outcome.number == 0 ? outcome.value : arvadush_refusal_text(outcome.number, outcome.place, out, sizeof out));
    return outcome.number == 0 ? 0 : 1;
}
