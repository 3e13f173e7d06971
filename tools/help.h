/* What a kind is, what its options mean, and an example of it. */
#ifndef HELP_H
#define HELP_H

struct help {
    const char *name, *summary; /* one line, in the list of kinds too */
    const char *options;        /* lines of the kind's own options, and of the forms that it has */
    const char *example;        /* the words behind the program's name */
};

/* The help of a kind of that name; null for an unknown one. */
const struct help *help_for(const char *name);

/* The lines of the options that every kind has. */
extern const char every_help[];

#endif
