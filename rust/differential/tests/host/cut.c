/*
 * Linked with the host, or with the fold tool, so that its calls of pwrite and fflush come here
 * (the linker's --wrap). Kills the program just before the call that PITSKELO_CUT in the
 * environment numbers, from 1 on. Between two such calls it does nothing that outlasts it, so these
 * are all the cuts there are.
 */

/* For pwrite. */
#define _POSIX_C_SOURCE 200809L

#include <signal.h>
#include <stdio.h>
#include <stdlib.h>
#include <unistd.h>

ssize_t __real_pwrite(int file, const void *bytes, size_t len, off_t at);
ssize_t __wrap_pwrite(int file, const void *bytes, size_t len, off_t at);
int __real_fflush(FILE *stream);
int __wrap_fflush(FILE *stream);

static void cut_here(void)
{
    static long call;
    const char *cut = getenv("PITSKELO_CUT");
    call++;
    if (cut != NULL && atol(cut) == call)
        raise(SIGKILL);
}

ssize_t __wrap_pwrite(int file, const void *bytes, size_t len, off_t at)
{
    cut_here();
    return __real_pwrite(file, bytes, len, at);
}

int __wrap_fflush(FILE *stream)
{
    cut_here();
    return __real_fflush(stream);
}
