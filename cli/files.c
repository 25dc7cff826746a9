/*
 * files.c - whole files in and out. A plain file is written under another name beside its own and renamed when it is whole, so that no
 * half file ever stands at its name (a run that is killed may leave NAME.PROCESS.part); a device, a pipe or a link is written where it
 * stands.
 */
#define _POSIX_C_SOURCE 200809L /* open, lstat, getpid */

#include "files.h"
#include "status.h"

#include <errno.h>
#include <fcntl.h>
#include <stdarg.h>
#include <stdlib.h>
#include <string.h>
#include <sys/stat.h>
#include <unistd.h>

void complain(const char *format, ...)
{
    va_list arguments;
    va_start(arguments, format);
    fputs("rigcandle: ", stderr);
    vfprintf(stderr, format, arguments);
    fputc('\n', stderr);
    va_end(arguments);
}

void *more_room(void *room, size_t size)
{
    room = realloc(room, size != 0 ? size : 1);
    if (room == NULL) {
        complain("out of memory");
        exit(UNUSABLE);
    }
    return room;
}

void *room_for(size_t size)
{
    return more_room(NULL, size);
}

static bool is_standard(const char *name)
{
    return strcmp(name, "-") == 0;
}

const char *input_name(const char *name)
{
    return is_standard(name) ? "standard input" : name;
}

const char *output_name(const char *name)
{
    return is_standard(name) ? "standard output" : name;
}

bool would_overwrite(const char *written, const char *read)
{
    struct stat a, b;
    if (is_standard(written) || stat(written, &a) != 0 || !S_ISREG(a.st_mode))
        return false;
    return (is_standard(read) ? fstat(STDIN_FILENO, &b) : stat(read, &b)) == 0 && a.st_dev == b.st_dev && a.st_ino == b.st_ino;
}

bool is_there(const char *name)
{
    struct stat there;
    return !is_standard(name) && stat(name, &there) == 0 && S_ISREG(there.st_mode);
}

bool can_be_read(const char *name)
{
    struct stat there;
    if (is_standard(name))
        return true;
    if (stat(name, &there) == 0 && !S_ISREG(there.st_mode) && !S_ISDIR(there.st_mode))
        return true;
    FILE *in = fopen(name, "rb");
    bool fine = in != NULL && (fgetc(in) != EOF || ferror(in) == 0);
    if (!fine)
        complain("%s: cannot be read: %s", name, strerror(errno));
    if (in != NULL)
        fclose(in);
    return fine;
}

/* ---------------------------------------------------------------- reading */

/* Reads until `most` + 1 bytes are there or the file ends. */
static bool read_stream(FILE *in, size_t most, struct bytes *into)
{
    into->at = room_for(most + 2);
    into->length = fread(into->at, 1, most + 1, in);
    into->at[into->length] = 0;
    return ferror(in) == 0;
}

bool read_whole(const char *name, size_t most, struct bytes *into)
{
    FILE *in = is_standard(name) ? stdin : fopen(name, "rb");
    bool fine = in != NULL && read_stream(in, most, into);
    if (!fine)
        complain("%s: cannot be read: %s", input_name(name), strerror(errno));
    if (in != NULL && in != stdin)
        fclose(in);
    return fine;
}

/* ---------------------------------------------------------------- writing */

/* The name under which a plain file is written: none of another run's. */
static char *part_name(const char *name)
{
    size_t room = strlen(name) + 32;
    char *part = room_for(room);
    snprintf(part, room, "%s.%ld.part", name, (long)getpid());
    return part;
}

static FILE *open_part(const char *part)
{
    int descriptor = open(part, O_WRONLY | O_CREAT | O_EXCL, 0666);
    return descriptor < 0 ? NULL : fdopen(descriptor, "wb");
}

bool open_output(const char *name, struct output *out)
{
    struct stat there;
    out->name = name;
    out->part = NULL;
    if (is_standard(name)) {
        out->stream = stdout;
    } else if (lstat(name, &there) == 0 && !S_ISREG(there.st_mode)) {
        out->stream = fopen(name, "wb");
    } else {
        out->part = part_name(name);
        out->stream = open_part(out->part);
    }
    if (out->stream == NULL) {
        complain("%s: cannot be written: %s", output_name(name), strerror(errno));
        free(out->part);
    }
    return out->stream != NULL;
}

bool close_output(struct output *out)
{
    static bool told;   /* of standard output, which may be closed twice */
    bool fine = ferror(out->stream) == 0 && fflush(out->stream) == 0;
    if (out->stream != stdout)
        fine = fclose(out->stream) == 0 && fine;
    if (fine && out->part != NULL)
        fine = rename(out->part, out->name) == 0;
    if (!fine && !told)
        complain("%s: cannot be written: %s", output_name(out->name), strerror(errno));
    if (!fine && out->part != NULL)
        remove(out->part);
    told = told || (!fine && out->stream == stdout);
    free(out->part);
    return fine;
}

bool write_whole(const char *name, const uint8_t *at, size_t length)
{
    struct output out;
    if (!open_output(name, &out))
        return false;
    fwrite(at, 1, length, out.stream);
    return close_output(&out);
}
