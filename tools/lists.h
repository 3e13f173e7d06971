/* Lists in one word of the command line: entries with commas between, taken off from the left. */
#ifndef LISTS_H
#define LISTS_H

#include <stdbool.h>
#include <stddef.h>
#include <stdint.h>

/* Takes these letters off. */
bool take_word(const char **at, const char *word);

/* Takes a number off, as elsewhere on the command line, with nothing blank before it. */
bool take_number(const char **at, double *x);

/* Takes what stands behind an entry off: nothing at the end, or a comma, which isn't the last letter. */
bool take_end(const char **at);

/* Takes the first number off a list of numbers, as in 0.42,0.5,0.08; false where the list is empty or begins with
 * something else, and is left there. */
bool take_listed(const char **list, double *x);

/* Whether it is a list of numbers, one at least, and nothing else. */
bool is_listed(const char *list);

/* The numbers of a list, eight bytes each, little-endian, and how many bytes; null where there is no memory. */
uint8_t *bytes_of_list(const char *list, size_t *bytes);

#endif
