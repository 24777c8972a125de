/* The console: takes calls on an account from standard input, one a line, and answers each (Account and its calls). */
#include "arvadush.h"
#include "streams.h"

#include <stdbool.h>
#include <string.h>

static const char HELP[] =
    "weights W W ..               opens an account with these weights, one for each day\n"
    "days PROFILE WEEKDAY M M ..  opens an account with the weights that these daily means give\n"
    "days .. M M .. as B B ..     does the same, with a byte B for each day\n"
    "reading K COUNT              sets a reading of COUNT Wh at boundary K\n"
    "withdraw K                   removes the reading at boundary K\n"
    "cut K                        sets a cut at boundary K\n"
    "uncut K                      removes the cut at boundary K\n"
    "statement                    prints the statement of the account\n"
    "help                         prints this text\n"
    "Profiles are 0 to 9, and weekdays are 0 (Monday) to 6.\n"
    "Means are hundredths of a degree C, oldest first. The first three are of the days before day 0.\n"
    "A byte is 0 to 6, the weekday that the day counts as, or 7, its own. Without bytes each day keeps its own.\n"
    "The answer is done, refused NUMBER PLACE or the statement. A line that is no call gets unknown LINE.\n"
    "Empty lines and lines that begin with # get no answer.\n";

/* One more than the longest span has, so that the library is given a list that is too long, and refuses it. */
enum { WEIGHTS = ARVADUSH_DAYS + 1, MEANS = WEIGHTS + 3 };

typedef struct {
    size_t n;
    uint32_t weights[WEIGHTS];
    uint8_t marks[WEIGHTS + 1];
    uint64_t counts[WEIGHTS + 1];
} account;

/* A word, or what is left of a line: the bytes from start up to end. */
typedef struct {
    const char *start, *end;
} text;

typedef struct {
    char *bytes;
    size_t length, room;
} buffer;

/* The current account has no days before the first accepted opening. An opening is tried on the spare one. */
static account accounts[2];
static account *current = &accounts[0], *spare = &accounts[1];

static uint8_t out[ARVADUSH_TEXT];

/* ---- Answers */

static void print_answer(uint8_t number, size_t place)
{
    if (number == 0)
        print("done\n", 5);
    else
        print(out, arvadush_refusal_text(number, place, out, sizeof out));
}

static void print_statement(void)
{
    static uint16_t from[ARVADUSH_DAYS], to[ARVADUSH_DAYS];
    static uint64_t wh[ARVADUSH_DAYS];
    const account *a = current;
    size_t n = a->n;
    arvadush_outcome outcome = arvadush_statement(a->weights, n, a->marks, n + 1, a->counts, n + 1, from, n, to, n, wh, n);
    if (outcome.number == 0)
        print(out, arvadush_statement_text(from, n, to, n, wh, n, outcome.value, out, sizeof out));
    else
        print_answer(outcome.number, outcome.place);
}

static void print_unknown(size_t line)
{
    if (printf("unknown %zu\n", line) < 0 || fflush(stdout) != 0)
        fail("standard output");
}

/* ---- Words and numbers */

static bool is_blank(char c)
{
    return c == ' ' || c == '\t';
}

static bool is_empty(text word)
{
    return word.start == word.end;
}

static bool is(text word, const char *name)
{
    size_t length = (size_t)(word.end - word.start);
    return length == strlen(name) && memcmp(word.start, name, length) == 0;
}

/* Takes the next word off the line; it is empty if none is left. */
static text next_word(text *line)
{
    while (line->start < line->end && is_blank(*line->start))
        line->start++;
    text word = {line->start, line->start};
    while (word.end < line->end && !is_blank(*word.end))
        word.end++;
    line->start = word.end;
    return word;
}

static bool no_word(text line)
{
    return is_empty(next_word(&line));
}

/* Whether the word is a decimal number up to most, which is at least 9. */
static bool number(text word, uint64_t most, uint64_t *value)
{
    *value = 0;
    for (const char *c = word.start; c < word.end; c++) {
        if (*c < '0' || *c > '9')
            return false;
        uint64_t digit = (uint64_t)(*c - '0');
        if (*value > (most - digit) / 10)
            return false;
        *value = *value * 10 + digit;
    }
    return !is_empty(word);
}

static bool mean(text word, int16_t *value)
{
    bool negative = !is_empty(word) && *word.start == '-';
    uint64_t size;
    word.start += negative;
    if (!number(word, negative ? 32768 : 32767, &size))
        return false;
    *value = (int16_t)(negative ? -(int32_t)size : (int32_t)size);
    return true;
}

/* ---- Calls. Each returns false, and prints nothing, if its words are not those that it takes. */

/* Opens the spare account with its first n weights, and makes it the current one. A refusal leaves the current one. */
static void open_spare(size_t n)
{
    uint8_t refusal = arvadush_open(spare->weights, n, spare->marks, n + 1, spare->counts, n + 1);
    if (refusal == 0) {
        account *opened = spare;
        opened->n = n;
        spare = current;
        current = opened;
    }
    print_answer(refusal, 0);
}

static bool call_weights(text line)
{
    size_t n = 0;
    while (!no_word(line)) {
        uint64_t weight;
        if (!number(next_word(&line), UINT32_MAX, &weight))
            return false;
        if (n < WEIGHTS)
            spare->weights[n++] = (uint32_t)weight;
    }
    open_spare(n);
    return true;
}

/* Reads the words that are left as the bytes of a calendar; false if one is no byte. */
static bool read_calendar(text line, uint8_t *calendar, size_t *length)
{
    *length = 0;
    while (!no_word(line)) {
        uint64_t byte;
        if (!number(next_word(&line), UINT8_MAX, &byte))
            return false;
        if (*length < WEIGHTS)
            calendar[(*length)++] = (uint8_t)byte;
    }
    return true;
}

static bool call_days(text line)
{
    static int16_t means[MEANS];
    static uint8_t calendar[WEIGHTS];
    size_t length = 0;
    uint64_t profile, weekday;
    if (!number(next_word(&line), UINT8_MAX, &profile) || !number(next_word(&line), UINT8_MAX, &weekday))
        return false;
    text word = next_word(&line);
    for (; !is_empty(word) && !is(word, "as"); word = next_word(&line)) {
        int16_t value;
        if (!mean(word, &value))
            return false;
        if (length < MEANS)
            means[length++] = value;
    }
    size_t n = length < 3 ? 0 : length - 3;
    /* Without bytes each day keeps its own weekday. */
    size_t calendar_len = n;
    memset(calendar, 7, n);
    if (is(word, "as") && !read_calendar(line, calendar, &calendar_len))
        return false;
    arvadush_outcome outcome =
        arvadush_weights((uint8_t)profile, (uint8_t)weekday, means, length, calendar, calendar_len, spare->weights, n);
    if (outcome.number == 0)
        open_spare(n);
    else
        print_answer(outcome.number, outcome.place);
    return true;
}

static bool call_reading(text line)
{
    account *a = current;
    uint64_t k, count;
    if (!number(next_word(&line), SIZE_MAX, &k) || !number(next_word(&line), UINT64_MAX, &count) || !no_word(line))
        return false;
    print_answer(arvadush_reading(a->weights, a->n, a->marks, a->n + 1, a->counts, a->n + 1, (size_t)k, count), 0);
    return true;
}

/* withdraw, cut or uncut */
static bool call_at_boundary(text name, text line)
{
    account *a = current;
    size_t n = a->n;
    uint64_t k;
    if (!number(next_word(&line), SIZE_MAX, &k) || !no_word(line))
        return false;
    if (is(name, "withdraw"))
        print_answer(arvadush_withdraw(a->weights, n, a->marks, n + 1, a->counts, n + 1, (size_t)k), 0);
    else if (is(name, "cut"))
        print_answer(arvadush_cut(a->weights, n, a->marks, n + 1, a->counts, n + 1, (size_t)k), 0);
    else
        print_answer(arvadush_uncut(a->weights, n, a->marks, n + 1, a->counts, n + 1, (size_t)k), 0);
    return true;
}

/* ---- Lines */

/* Answers a line; false if it is no call. */
static bool answer(text line)
{
    text name = next_word(&line);
    if (is_empty(name) || *name.start == '#')
        return true;
    if (is(name, "weights"))
        return call_weights(line);
    if (is(name, "days"))
        return call_days(line);
    if (is(name, "reading"))
        return call_reading(line);
    if (is(name, "withdraw") || is(name, "cut") || is(name, "uncut"))
        return call_at_boundary(name, line);
    if (!no_word(line))
        return false;
    if (is(name, "statement"))
        print_statement();
    else if (is(name, "help"))
        print(HELP, sizeof HELP - 1);
    else
        return false;
    return true;
}

static void append(buffer *line, char c)
{
    if (line->length == line->room) {
        line->room = line->room == 0 ? 256 : 2 * line->room;
        line->bytes = realloc(line->bytes, line->room);
        if (line->bytes == NULL)
            fail("memory");
    }
    line->bytes[line->length++] = c;
}

/* Reads the next line and the line feed that ends it; the last line gets one if it has none. False if no line is left. */
static bool read_line(buffer *line)
{
    int c;
    line->length = 0;
    while ((c = getchar()) != EOF && c != '\n')
        append(line, (char)c);
    /* A line that a failure cuts short could be another call. */
    if (ferror(stdin))
        fail("standard input");
    if (c == EOF && line->length == 0)
        return false;
    append(line, '\n');
    return true;
}

/* The line without its end, LF or CRLF. */
static text contents(const buffer *line)
{
    size_t length = line->length - 1;
    if (length > 0 && line->bytes[length - 1] == '\r')
        length--;
    return (text){line->bytes, line->bytes + length};
}

int main(void)
{
    buffer line = {NULL, 0, 0};
    int status = 0;
    for (size_t i = 1; read_line(&line); i++)
        if (!answer(contents(&line))) {
            print_unknown(i);
            status = 1;
        }
    free(line.bytes);
    return status;
}
