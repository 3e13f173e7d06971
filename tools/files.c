/* Files that appear whole or not at all, and files that are read whole. */
#define _XOPEN_SOURCE 700
#include "files.h"

#include <errno.h>
#include <stdlib.h>
#include <string.h>
#include <sys/stat.h>
#include <unistd.h>

#include "name.h"

/* What is wrong with a file, as errno has it; false. */
static bool say_wrong(const struct file *f)
{
    const char *what = f->path == NULL ? "standard output" : f->path;
    fprintf(stderr, "%s: can't write %s: %s\n", program_name(), what, strerror(errno));
    return false;
}

static char *copy_of(const char *text)
{
    char *copy = malloc(strlen(text) + 1);
    return copy == NULL ? NULL : strcpy(copy, text);
}

/* A name in the directory of a place, for mkstemp to make a free one of; null where there's no memory. */
static char *name_beside(const char *place)
{
    static const char name[] = ".design-XXXXXX";
    const char *last = strrchr(place, '/');
    size_t before = last == NULL ? 0 : (size_t)(last - place) + 1;
    char *beside = malloc(before + sizeof name);
    if (beside != NULL) {
        memcpy(beside, place, before);
        memcpy(beside + before, name, sizeof name);
    }
    return beside;
}

/* Beside its place, so that a rename can't cross to another disk; mkstemp gives the owner's rights alone. */
static FILE *open_beside(struct file *f, mode_t rights)
{
    f->beside = name_beside(f->place);
    int number = f->beside == NULL ? -1 : mkstemp(f->beside);
    if (number < 0) {
        free(f->beside);
        f->beside = NULL;
        return NULL;
    }
    fchmod(number, rights);
    return fdopen(number, "wb");
}

static mode_t new_rights(void)
{
    mode_t mask = umask(0);
    umask(mask);
    return 0666 & ~mask;
}

/* A device or a pipe stays what it is, and is written in place; a file is replaced, behind a link the one that
 * it leads to, if it may be written. */
static FILE *open_named(struct file *f)
{
    struct stat there;
    if (stat(f->path, &there) != 0) {
        if (errno == ENOENT)
            f->place = copy_of(f->path);
        return f->place == NULL ? NULL : open_beside(f, new_rights());
    }
    if (S_ISDIR(there.st_mode)) {
        errno = EISDIR;
        return NULL;
    }
    if (!S_ISREG(there.st_mode))
        return fopen(f->path, "wb");
    if (access(f->path, W_OK) != 0)
        return NULL;
    f->place = realpath(f->path, NULL);
    return f->place == NULL ? NULL : open_beside(f, there.st_mode & 0777);
}

bool open_file(struct file *f, const char *path)
{
    *f = (struct file){.path = path};
    f->to = path == NULL ? stdout : open_named(f);
    if (f->to != NULL)
        return true;
    say_wrong(f);
    drop_file(f);
    return false;
}

bool finish_file(struct file *f)
{
    bool good = fflush(f->to) == 0 && ferror(f->to) == 0;
    if (f->to != stdout)
        good = fclose(f->to) == 0 && good;
    f->to = NULL;
    if (good)
        return true;
    say_wrong(f);
    drop_file(f);
    return false;
}

bool keep_file(struct file *f)
{
    bool good = f->beside == NULL || rename(f->beside, f->place) == 0;
    if (good) {
        free(f->beside);
        f->beside = NULL;
    } else {
        say_wrong(f);
    }
    drop_file(f);
    return good;
}

void drop_file(struct file *f)
{
    if (f->to != NULL && f->to != stdout)
        fclose(f->to);
    f->to = NULL;
    if (f->beside != NULL)
        unlink(f->beside);
    free(f->beside);
    free(f->place);
    f->beside = f->place = NULL;
}

bool is_same_file(const char *source, const char *path)
{
    struct stat one, other;
    if ((source == NULL ? fstat(STDIN_FILENO, &one) : stat(source, &one)) != 0 || stat(path, &other) != 0)
        return false;
    return S_ISREG(one.st_mode) && one.st_dev == other.st_dev && one.st_ino == other.st_ino;
}

/* Null, and why in errno: EFBIG where there are more. One byte beyond the most tells that, however many follow. */
static uint8_t *read_open(FILE *from, size_t most, size_t *bytes)
{
    uint8_t *all = NULL;
    size_t n = 0;
    for (size_t room = 4096;; room *= 2) {
        room = room <= most ? room : most + 1;
        uint8_t *more = realloc(all, room);
        if (more == NULL)
            break;
        all = more;
        n += fread(all + n, 1, room - n, from);
        if (n < room && ferror(from) == 0) {
            *bytes = n;
            return all;
        }
        if (n > most)
            errno = EFBIG;
        if (n > most || n < room)
            break;
    }
    int why = errno;
    free(all);
    errno = why;
    return NULL;
}

uint8_t *read_file(const char *path, size_t most, size_t *bytes)
{
    FILE *from = path == NULL ? stdin : fopen(path, "rb");
    uint8_t *all = from == NULL ? NULL : read_open(from, most, bytes);
    int why = errno;
    if (from != NULL && from != stdin)
        fclose(from);
    if (all != NULL)
        return all;
    fprintf(stderr, "%s: can't read %s: ", program_name(), path == NULL ? "standard input" : path);
    if (why == EFBIG)
        fprintf(stderr, "it has more than %zu bytes\n", most);
    else
        fprintf(stderr, "%s\n", strerror(why));
    return NULL;
}
