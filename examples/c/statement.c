/* Reads a case file from standard input, or from the file named as argument, and prints its statement or its refusal (Case file). */
#include "arvadush.h"
#include "streams.h"

static uint8_t file[ARVADUSH_FILE];
static uint32_t weights[ARVADUSH_DAYS];
static uint8_t marks[ARVADUSH_BOUNDARIES];
static uint64_t counts[ARVADUSH_BOUNDARIES];
static uint16_t from[ARVADUSH_DAYS], to[ARVADUSH_DAYS];
static uint64_t wh[ARVADUSH_DAYS];
static uint8_t text[ARVADUSH_TEXT];

int main(int argc, char **argv)
{
    size_t length = read_input(argc, argv, file, sizeof file);
    size_t n = 0, parts = 0;
    arvadush_outcome outcome =
        arvadush_read(file, length, weights, ARVADUSH_DAYS, marks, ARVADUSH_BOUNDARIES, counts, ARVADUSH_BOUNDARIES);
    if (outcome.number == 0) {
        n = outcome.value;
        outcome = arvadush_statement(weights, n, marks, n + 1, counts, n + 1, from, n, to, n, wh, n);
        parts = outcome.value;
    }
    print(text, outcome.number == 0 ? arvadush_statement_text(from, n, to, n, wh, n, parts, text, ARVADUSH_TEXT)
                                    : arvadush_refusal_text(outcome.number, outcome.place, text, ARVADUSH_TEXT));
    return outcome.number == 0 ? 0 : 1;
}
