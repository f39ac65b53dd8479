/* Stands before the C library: fsync fails, or the close of a regular file that was open for writing, as the variable FAULT says. */
#define _GNU_SOURCE
#include <dlfcn.h>
#include <errno.h>
#include <fcntl.h>
#include <stdlib.h>
#include <string.h>
#include <sys/stat.h>
#include <unistd.h>

/* Whether this fault is wanted. */
static int wanted(const char *fault)
{
    const char *named = getenv("FAULT");
    return named && strcmp(named, fault) == 0;
}

static int failed(void)
{
    errno = EIO;
    return -1;
}

int fsync(int file)
{
    int (*real)(int) = (int (*)(int))dlsym(RTLD_NEXT, "fsync");
    return wanted("fsync") ? failed() : real(file);
}

int close(int file)
{
    int (*real)(int) = (int (*)(int))dlsym(RTLD_NEXT, "close");
    struct stat status;
    const int flags = fcntl(file, F_GETFL);
    const int written = flags >= 0 && (flags & O_ACCMODE) != O_RDONLY && fstat(file, &status) == 0 && S_ISREG(status.st_mode);
    const int done = real(file);
    return written && wanted("close") ? failed() : done;
}
