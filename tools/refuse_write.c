/* Refuses the writes of a program to its output from one on: the one whose number, from 1, is in REFUSE_NUMBER.

With REFUSE_HALF=1 that write takes half of its bytes, and the next one is refused. Built and preloaded by
shared_texts.py. */
#define _GNU_SOURCE
#include <dlfcn.h>
#include <errno.h>
#include <stdlib.h>
#include <unistd.h>

static ssize_t (*write_on)(int, const void *, size_t);
static long refused_number, half, asked;

__attribute__((constructor)) static void begin(void)
{
    write_on = dlsym(RTLD_NEXT, "write");
    refused_number = atol(getenv("REFUSE_NUMBER"));
    half = atol(getenv("REFUSE_HALF"));
}

ssize_t write(int file, const void *bytes, size_t count)
{
    if (file != STDOUT_FILENO)
        return write_on(file, bytes, count);
    asked++;
    if (asked < refused_number)
        return write_on(file, bytes, count);
    if (asked == refused_number && half && count > 1)
        return write_on(file, bytes, count / 2);
    errno = ENOSPC;
    return -1;
}
