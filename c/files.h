/* Files read up to a length, and written whole or not at all (POSIX). All of it stands in this header, so that one source makes a
 * program. A function that gives an int gives 0, or the system's number of an error, where it does not say `whether`. */
#ifndef FILES_H
#define FILES_H

#include <errno.h>
#include <fcntl.h>
#include <limits.h>
#include <signal.h>
#include <stdint.h>
#include <stdio.h>
#include <stdlib.h>
#include <string.h>
#include <sys/stat.h>
#include <unistd.h>

/* The room that reading begins with. */
#define ROOM_LEAST ((size_t)65536)
/* As many links as Linux follows. */
#define LINKS_MOST 40

struct bytes {
    uint8_t *start;
    size_t length;
};

/* Whether a descriptor is open. */
static int is_open(int file)
{
    return fcntl(file, F_GETFD) >= 0;
}

/* Opens what is closed of standard input, output and error, so that no other file gets their numbers. */
static void open_closed(void)
{
    for (int file = STDIN_FILENO; file <= STDERR_FILENO; file++)
        if (!is_open(file) && open("/dev/null", O_RDWR) < 0)
            return;
}

/* Whether two paths lead to one file. */
static int same_file(const char *one, const char *other)
{
    struct stat a, b;
    return stat(one, &a) == 0 && stat(other, &b) == 0 && a.st_dev == b.st_dev && a.st_ino == b.st_ino;
}

/* Whether a path leads to where standard output goes. A line printed there would be lost with the old file, or stand behind the samples;
 * a terminal and the like may have both. */
static int takes_output(const char *path)
{
    struct stat file, output;
    return stat(path, &file) == 0 && !S_ISCHR(file.st_mode) && fstat(STDOUT_FILENO, &output) == 0
        && file.st_dev == output.st_dev && file.st_ino == output.st_ino;
}

/* Makes room for as many bytes. */
static int resize(struct bytes *bytes, size_t room)
{
    uint8_t *start = realloc(bytes->start, room);
    if (!start)
        return ENOMEM;
    bytes->start = start;
    return 0;
}

/* Reads the first `most` bytes of a file into bytes that hold none yet. The caller frees them, after an error too. */
static int read_file(const char *path, size_t most, struct bytes *bytes)
{
    const int file = open(path, O_RDONLY);
    if (file < 0)
        return errno;
    size_t room = most < ROOM_LEAST ? most : ROOM_LEAST;
    int error = resize(bytes, room);
    ssize_t got = 1;
    while (!error && got > 0 && bytes->length < most) {
        if (bytes->length == room)
            error = resize(bytes, room = most / 2 < room ? most : 2 * room);
        got = error ? 0 : read(file, bytes->start + bytes->length, room - bytes->length);
        if (got < 0)
            error = errno;
        else
            bytes->length += (size_t)got;
    }
    close(file);
    return error;
}

/* Writes to an open file, down to the disk, and closes it. */
static int fill(int file, struct bytes bytes)
{
    int error = 0;
    while (!error && bytes.length > 0) {
        const ssize_t put = write(file, bytes.start, bytes.length);
        if (put <= 0)
            error = put < 0 ? errno : ENOSPC;
        else
            bytes = (struct bytes){ bytes.start + put, bytes.length - (size_t)put };
    }
    if (!error && fsync(file) != 0 && errno != EINVAL) /* pipes and most devices keep nothing back, and cannot be synced */
        error = errno;
    if (close(file) != 0 && !error)
        error = errno;
    return error;
}

/* A name in the folder of a path; NULL if there is no memory. */
static char *beside(const char *path, const char *name)
{
    const char *slash = strrchr(path, '/');
    const size_t folder = slash ? (size_t)(slash - path) + 1 : 0;
    char *joined = malloc(folder + strlen(name) + 1);
    if (joined) {
        memcpy(joined, path, folder);
        strcpy(joined + folder, name);
    }
    return joined;
}

/* What a path names once links are followed, also where nothing is there yet; NULL if there is no memory. */
static char *followed(const char *path)
{
    char target[PATH_MAX + 1], *place = strdup(path);
    for (int links = 0; place && links < LINKS_MOST; links++) {
        const ssize_t length = readlink(place, target, PATH_MAX);
        if (length < 0)
            break;
        target[length] = '\0';
        char *next = target[0] == '/' ? strdup(target) : beside(place, target);
        free(place);
        place = next;
    }
    return place;
}

/* An error if an old file may not be written to: to move another over it, the system asks for its folder alone. */
static int may_write(const char *place)
{
    const int file = open(place, O_WRONLY);
    return file < 0 || close(file) != 0 ? errno : 0;
}

/* The permissions that the system gives to new files. */
static mode_t usual_mode(void)
{
    const mode_t mask = umask(0);
    umask(mask);
    return 0666 & ~mask;
}

/* Fills a new file of this mode, whose name is made from `pattern`, and moves it to its place. */
static int replace_now(const char *place, char *pattern, mode_t mode, struct bytes bytes)
{
    const int file = mkstemp(pattern);
    if (file < 0)
        return errno;
    int error = fchmod(file, mode) != 0 ? errno : 0;
    const int filled = fill(file, bytes);
    if (!error)
        error = filled;
    if (!error && rename(pattern, place) != 0)
        error = errno;
    if (error)
        unlink(pattern);
    return error;
}

/* Does so without heeding what would end the program: else the new file might be left behind. */
static int replace(const char *place, char *pattern, mode_t mode, struct bytes bytes)
{
    static const int ends[] = { SIGHUP, SIGINT, SIGTERM };
    void (*before[3])(int);
    for (int k = 0; k < 3; k++)
        before[k] = signal(ends[k], SIG_IGN);
    const int error = replace_now(place, pattern, mode, bytes);
    for (int k = 0; k < 3; k++)
        signal(ends[k], before[k]);
    return error;
}

/* Writes a file whole, or leaves it as it was. What is no file, such as a device or a pipe, is written to as it is. */
static int write_file(const char *path, struct bytes bytes)
{
    struct stat old;
    const int there = stat(path, &old) == 0;
    if (!there && errno != ENOENT)
        return errno;
    if (there && !S_ISREG(old.st_mode)) {
        const int file = open(path, O_WRONLY); /* a folder cannot be opened so */
        return file < 0 ? errno : fill(file, bytes);
    }
    char *place = followed(path), *pattern = place ? beside(place, ".hejslopi-XXXXXX") : NULL;
    int error = !pattern ? ENOMEM : there ? may_write(place) : 0;
    if (!error)
        error = replace(place, pattern, there ? old.st_mode & 0777 : usual_mode(), bytes);
    free(pattern);
    free(place);
    return error;
}

#endif
