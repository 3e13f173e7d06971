/* What the program calls itself. */
#include "name.h"

#include <stddef.h>
#include <string.h>

static const char *name = "peldozkar";

void take_name(const char *word)
{
    const char *last = word == NULL ? NULL : strrchr(word, '/');
    const char *taken = last == NULL ? word : last + 1;
    if (taken != NULL && *taken != '\0')
        name = taken;
}

const char *program_name(void)
{
    return name;
}
