/*
 * files.h - whole files in and out, with a message on standard error where that fails. The name "-" is standard input or output.
 */
#ifndef FILES_H
#define FILES_H

#include <stdbool.h>
#include <stddef.h>
#include <stdint.h>
#include <stdio.h>

struct bytes {
    uint8_t *at;
    size_t length;
};

/* A file that is being written. A plain file appears, whole, at its name only when it is closed. */
struct output {
    FILE *stream;
    const char *name;
    char *part;   /* where a plain file stands until then, or NULL */
};

/* "rigcandle: " and the message, as a line on standard error. */
void complain(const char *format, ...);

/* Memory, or the end of the program with a message; `more_room` moves what stands in it. */
void *room_for(size_t size);
void *more_room(void *room, size_t size);

/* What a message calls a file that is read or written. */
const char *input_name(const char *name);
const char *output_name(const char *name);

/* Whether writing the one would overwrite the other, which is read: both are one plain file. */
bool would_overwrite(const char *written, const char *read);

/* Whether a plain file stands there already. */
bool is_there(const char *name);

/* Whether a file can be opened and read; tells where it cannot. Of standard input and of a pipe no byte is taken, and none is told. */
bool can_be_read(const char *name);

/* All bytes of a file, but of one longer than `most` only the first most + 1, so that the caller sees that it is too long. Behind them
 * stands a zero byte. */
bool read_whole(const char *name, size_t most, struct bytes *into);

/* Opens and closes a file to write; `close_output` answers whether all of it was written. */
bool open_output(const char *name, struct output *out);
bool close_output(struct output *out);

/* Writes these bytes as a whole file. */
bool write_whole(const char *name, const uint8_t *at, size_t length);

#endif
