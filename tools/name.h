/* What the program calls itself: the name that it was started by, without its folders. */
#ifndef NAME_H
#define NAME_H

/* Takes the name from the first word of the command line, which may be null or empty. */
void take_name(const char *word);

/* The name taken; peldozkar where there is none. */
const char *program_name(void);

#endif
