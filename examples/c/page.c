/* Reads a case file from standard input, or from the file named as argument, and prints its page for the post or its refusal (K4). */
#include "arvadush.h"
#include "streams.h"

static uint8_t file[ARVADUSH_FILE];
static uint32_t weights[ARVADUSH_DAYS];
static uint8_t marks[ARVADUSH_BOUNDARIES];
static uint64_t counts[ARVADUSH_BOUNDARIES];
static uint16_t from[ARVADUSH_DAYS], to[ARVADUSH_DAYS];
static uint64_t wh[ARVADUSH_DAYS];
static uint8_t page[41 * (ARVADUSH_DAYS + 1)];

int main(int argc, char **argv)
{
    size_t length = read_input(argc, argv, file, sizeof file);
    arvadush_outcome outcome =
        arvadush_read(file, length, weights, ARVADUSH_DAYS, marks, ARVADUSH_BOUNDARIES, counts, ARVADUSH_BOUNDARIES);
    if (outcome.number == 0) {
        size_t n = outcome.value;
        /* The statement gives the number of parts. If it is refused, that is 0, and the page is refused alike. */
        size_t parts = arvadush_statement(weights, n, marks, n + 1, counts, n + 1, from, n, to, n, wh, n).value;
        outcome = arvadush_page(weights, n, marks, n + 1, counts, n + 1, page, 41 * (parts + 1));
    }
    print(page, outcome.number == 0 ? outcome.value : arvadush_refusal_text(outcome.number, outcome.place, page, sizeof page));
    return outcome.number == 0 ? 0 : 1;
}
