/* Files that appear whole or not at all: written beside their place under a name of their own, and renamed. And files
 * that are read whole. */
#ifndef FILES_H
#define FILES_H

#include <stdbool.h>
#include <stddef.h>
#include <stdint.h>
#include <stdio.h>

struct file {
    const char *path; /* as it was said; null for standard output */
    char *place;      /* where it goes, behind symbolic links */
    char *beside;     /* where it is written meanwhile; null where it is written in place, as a device is */
    FILE *to;
};

/* Opens a file, or standard output for a null path; false, and what is wrong in one line, where it can't be. */
bool open_file(struct file *f, const char *path);

/* Writes what is left to write: false, the file dropped and what is wrong in one line, where it can't be. */
bool finish_file(struct file *f);

/* Puts a finished file in its place; false as above. */
bool keep_file(struct file *f);

/* Leaves nothing of it behind. */
void drop_file(struct file *f);

/* Whether a path leads to the file that another one, or standard input for null, reads: no device, and no pipe. */
bool is_same_file(const char *source, const char *path);

/* The bytes of a file, or of standard input for a null path, to be freed: null, and what is wrong in one line, where
 * they can't be read or are more than `most`. */
uint8_t *read_file(const char *path, size_t most, size_t *bytes);

#endif
