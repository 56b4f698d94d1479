/* What the tests in C share: a count of what held, and whole files. */
#ifndef TEST_H
#define TEST_H

#include <stdio.h>
#include <stdlib.h>
#include <string.h>

#include "notepage.h"

static unsigned long passed, failed;

static inline void holds(int fact, const char *what)
{
    passed += fact != 0;
    failed += fact == 0;
    if (!fact) printf("failed: %s\n", what);
}

#define HOLDS(fact) holds((fact) != 0, #fact)

static inline int ended(void)
{
    printf("%lu passed, %lu failed\n", passed, failed);
    return failed != 0 || passed == 0;
}

static inline void give_up(const char *why)
{
    fprintf(stderr, "%s\n", why);
    exit(2);
}

static inline unsigned char *lend(size_t length)
{
    unsigned char *buffer = (unsigned char *)malloc(length + 1);
    if (!buffer) give_up("no memory");
    return buffer;
}

static inline unsigned char *whole_file(const char *name, size_t *length)
{
    FILE *file = fopen(name, "rb");
    unsigned char *bytes;
    long end = 0;
    if (!file || fseek(file, 0, SEEK_END) || (end = ftell(file)) < 0 || fseek(file, 0, SEEK_SET)) give_up(name);
    *length = (size_t)end;
    bytes = lend(*length);
    if (fread(bytes, 1, *length, file) != *length) give_up(name);
    fclose(file);
    return bytes;
}

static inline unsigned char *file_in(const char *folder, const char *name, size_t *length)
{
    char path[4096];
    int n = snprintf(path, sizeof path, "%s/%s", folder, name);
    if (n < 0 || (size_t)n >= sizeof path) give_up("the folder's name is too long");
    return whole_file(path, length);
}

static inline int all_are(const unsigned char *bytes, size_t length, unsigned char byte)
{
    size_t i;
    for (i = 0; i < length; i++)
        if (bytes[i] != byte) return 0;
    return 1;
}

#endif
