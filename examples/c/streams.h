/* What the programs here read and print. A program that cannot ends with status 2. */
#ifndef STREAMS_H
#define STREAMS_H

#include <stdio.h>
#include <stdlib.h>

static inline void fail(const char *what)
{
    perror(what);
    exit(2);
}

static inline void print(const void *bytes, size_t length)
{
    if (fwrite(bytes, 1, length, stdout) != length || fflush(stdout) != 0)
        fail("standard output");
}

/* Reads up to `room` bytes of the file named as argument, or of standard input if none is named. Returns how many it read. */
static inline size_t read_input(int argc, char **argv, void *bytes, size_t room)
{
    const char *name = argc > 1 ? argv[1] : "standard input";
    FILE *in = argc > 1 ? fopen(name, "rb") : stdin;
    if (in == NULL)
        fail(name);
    size_t length = fread(bytes, 1, room, in);
    if (ferror(in))
        fail(name);
    return length;
}

#endif
