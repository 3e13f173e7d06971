/* Hands cards and tickets to the library for compare.py, thousands in one call: from Python each call would take longer
 * than its card. Each card and each buffer lies right before a page that nobody may touch, so that a reader or a writer
 * which goes past its bytes is stopped and told, and so is one that doesn't come back. */
#define _DEFAULT_SOURCE
#include <peldozkar.h>
#include <setjmp.h>
#include <signal.h>
#include <stdio.h>
#include <string.h>
#include <sys/mman.h>
#include <sys/time.h>
#include <unistd.h>

/* The bytes of the longest card, of the shortest record, and of the guards before a buffer. */
enum { LONGEST = 1 << 16, SHORTEST = 22, GUARDS = 64 };

/* What can go wrong besides, and the seconds of processor time that the cards or tickets of a call have. */
enum { NOTHING_WRONG = 0, WENT_PAST = 1, STAYED_AWAY = 2, WRITTEN_TO = 3, WRITTEN_BEFORE = 4, PATIENCE = 5 };

static uint64_t wrong;
static sigjmp_buf stopped;

/* ---- What stops a library that goes astray */

static const int signals[] = {SIGSEGV, SIGBUS, SIGVTALRM};
static struct sigaction before[3];

/* The ends of LONGEST bytes and a page for guards, right before a page that may not be touched: one for what is handed
 * over, the other for what comes of it. */
static uint8_t *end, *edge;
static uint8_t guards[GUARDS];

static void stop(int number)
{
    wrong = number == SIGVTALRM ? STAYED_AWAY : WENT_PAST;
    siglongjmp(stopped, 1);
}

static uint8_t *wall(void)
{
    size_t page = (size_t)sysconf(_SC_PAGESIZE), room = (LONGEST + page - 1) / page * page;
    uint8_t *memory = mmap(NULL, page + room + page, PROT_READ | PROT_WRITE, MAP_PRIVATE | MAP_ANONYMOUS, -1, 0);
    if (memory == MAP_FAILED || mprotect(memory + page + room, page, PROT_NONE) != 0)
        return NULL;
    return memory + page + room;
}

/* Gives 0 where there is no memory. */
static int watch(void)
{
    static const struct itimerval patience = {{0, 0}, {PATIENCE, 0}};
    struct sigaction ours;
    if (end == NULL)
        end = wall();
    if (edge == NULL)
        edge = wall();
    if (end == NULL || edge == NULL)
        return 0;
    for (int i = 0; i < GUARDS; i++)
        guards[i] = (uint8_t)(0xA5 ^ i);
    memset(&ours, 0, sizeof ours);
    ours.sa_handler = stop;
    ours.sa_flags = SA_NODEFER; /* since a stopped library never comes back from it */
    for (int i = 0; i < 3; i++)
        sigaction(signals[i], &ours, &before[i]);
    wrong = NOTHING_WRONG;
    setitimer(ITIMER_VIRTUAL, &patience, NULL);
    return 1;
}

static void leave(void)
{
    static const struct itimerval none;
    setitimer(ITIMER_VIRTUAL, &none, NULL);
    for (int i = 0; i < 3; i++)
        sigaction(signals[i], &before[i], NULL);
}

/* Writes a ticket into a buffer that has room for guards before it. */
static pel_report guarded(pel_ticket ticket, uint8_t *out, size_t bytes)
{
    memcpy(out - GUARDS, guards, GUARDS);
    pel_report report = pel_write_ticket(ticket, out, bytes);
    if (memcmp(out - GUARDS, guards, GUARDS) != 0)
        wrong = WRITTEN_BEFORE;
    return report;
}

/* ---- Cards, and their tickets written back */

/* A reading, and what writing its ticket back gives: zeros where the reading is refused. */
struct there_and_back {
    pel_reading reading;
    pel_report report;
    uint8_t record[PEL_LONGEST_RECORD + 2];
};

/* What is answered about a card: what went wrong besides, what pel_check_card finds, and every reading. */
struct answer {
    uint64_t wrong;
    uint64_t readings;
    pel_card card;
    struct there_and_back reading[LONGEST / SHORTEST + 2];
};

static struct answer answer;

/* Writes the ticket of a record that was read. Before that no byte of the buffer is the record's. */
static void write_back(struct there_and_back *to, const uint8_t *record)
{
    size_t bytes = (size_t)to->reading.report.count;
    uint8_t *out = edge - bytes;
    for (size_t i = 0; i < bytes; i++)
        out[i] = (uint8_t)~record[i];
    to->report = guarded(to->reading.ticket, out, bytes);
    memcpy(to->record, out, bytes);
}

/* Reads record by record, each time what the last reading left, until one is refused: at the end of a whole card that
 * is the reading of no bytes. A reading that takes nothing, or more than there is or than a record has, ends it too,
 * and so does one more than a card of this length has. */
static void read_on(const uint8_t *source, size_t left)
{
    size_t most = left / SHORTEST + 2;
    while (answer.readings < most) {
        struct there_and_back *to = &answer.reading[answer.readings++];
        memset(to, 0, sizeof *to);
        pel_reading r = to->reading = pel_read_ticket(source, left);
        if (r.report.number != PEL_ACCEPTED || r.report.count == 0 || r.report.count > left ||
            r.report.count > PEL_LONGEST_RECORD)
            return;
        write_back(to, source);
        source += r.report.count;
        left -= (size_t)r.report.count;
    }
}

static void ask(const uint8_t *source, size_t length)
{
    memset(&answer, 0, offsetof(struct answer, reading));
    if (sigsetjmp(stopped, 0) != 0)
        return;
    read_on(source, length);
    answer.card = pel_check_card(source, length);
}

/* Asks about so many cards, which lie one behind the other, and writes the answers one behind the other, each with as
 * many readings as there were: at most length / SHORTEST + 2. A card that the library doesn't come back from is the
 * last one. Gives the bytes written, 0 where there is no memory. */
size_t batch(const uint8_t *cards, const uint64_t *lengths, size_t count, uint8_t *answers)
{
    uint8_t *to = answers;
    if (!watch())
        return 0;
    for (size_t i = 0; i < count && wrong != STAYED_AWAY; i++) {
        size_t length = (size_t)lengths[i];
        wrong = NOTHING_WRONG;
        memcpy(end - length, cards, length);
        ask(end - length, length);
        if (wrong == NOTHING_WRONG && memcmp(end - length, cards, length) != 0)
            wrong = WRITTEN_TO;
        answer.wrong = wrong;
        size_t told = offsetof(struct answer, reading) + answer.readings * sizeof answer.reading[0];
        memcpy(to, &answer, told);
        to += told;
        cards += length;
    }
    leave();
    return (size_t)(to - answers);
}

/* ---- Tickets, and their records read again */

/* What is answered about a ticket: what went wrong besides, the report of writing it, and what is read of the record,
 * zeros where there is none. The bytes of the buffer follow. */
struct writing {
    uint64_t wrong;
    pel_report report;
    pel_reading reading;
};

static struct writing writing;

/* Writes a ticket into a buffer with so many bytes in it. Where that is accepted, what stands there is read, with the
 * bytes that follow `bytes` behind it. */
static void put(const pel_ticket *ticket, const uint8_t *bytes, size_t length, size_t behind, uint8_t *buffer)
{
    memset(&writing, 0, sizeof writing);
    memcpy(end - length, bytes, length);
    if (sigsetjmp(stopped, 0) != 0) {
        memcpy(buffer, end - length, length);
        return;
    }
    writing.report = guarded(*ticket, end - length, length);
    memcpy(buffer, end - length, length);
    if (writing.report.number == PEL_ACCEPTED) {
        uint8_t *source = edge - behind - length;
        memcpy(source, buffer, length);
        memcpy(source + length, bytes + length, behind);
        writing.reading = pel_read_ticket(source, length + behind);
    }
}

/* Writes so many tickets. For each one `lengths` has the bytes of its buffer and of what is put behind its record, and
 * these lie one behind the other, as the answers do. A ticket that the library doesn't come back from is the last one.
 * Gives the bytes written, 0 where there is no memory. */
size_t writes(const pel_ticket *tickets, const uint8_t *bytes, const uint64_t *lengths, size_t count, uint8_t *answers)
{
    uint8_t *to = answers;
    if (!watch())
        return 0;
    for (size_t i = 0; i < count && wrong != STAYED_AWAY; i++) {
        size_t length = (size_t)lengths[2 * i], behind = (size_t)lengths[2 * i + 1];
        wrong = NOTHING_WRONG;
        put(&tickets[i], bytes, length, behind, to + sizeof writing);
        writing.wrong = wrong;
        memcpy(to, &writing, sizeof writing);
        to += sizeof writing + length;
        bytes += length + behind;
    }
    leave();
    return (size_t)(to - answers);
}

/* ---- Gigabytes */

/* A card of so many copies of a block, which is whole pages: one file, mapped again and again, so that gigabytes of
 * card take a block's memory. Reads from its first `told` bytes, and checks all but its last `less`. Gives 0 where such
 * a card can't be had. */
int repeated(const uint8_t *block, size_t bytes, size_t copies, size_t told, size_t less, pel_reading *reading,
             pel_card *card)
{
    size_t whole = bytes * copies, done = 0;
    FILE *file = tmpfile();
    if (file == NULL)
        return 0;
    /* The room first, and then the copies into it. */
    uint8_t *memory = mmap(NULL, whole, PROT_NONE, MAP_PRIVATE | MAP_ANONYMOUS | MAP_NORESERVE, -1, 0);
    if (memory != MAP_FAILED && fwrite(block, 1, bytes, file) == bytes && fflush(file) == 0) {
        while (done < whole &&
               mmap(memory + done, bytes, PROT_READ, MAP_SHARED | MAP_FIXED, fileno(file), 0) != MAP_FAILED)
            done += bytes;
        if (done == whole) {
            *reading = pel_read_ticket(memory, told);
            *card = pel_check_card(memory, whole - less);
        }
    }
    if (memory != MAP_FAILED)
        munmap(memory, whole);
    fclose(file);
    return done == whole;
}

/* Writes a ticket into a buffer of so many bytes, none of which may be touched. Gives 0 where they can't be had. */
int untouched(const pel_ticket *ticket, size_t bytes, uint64_t *went_wrong, pel_report *report)
{
    uint8_t *memory = mmap(NULL, bytes, PROT_NONE, MAP_PRIVATE | MAP_ANONYMOUS | MAP_NORESERVE, -1, 0);
    if (memory == MAP_FAILED)
        return 0;
    if (!watch()) {
        munmap(memory, bytes);
        return 0;
    }
    if (sigsetjmp(stopped, 0) == 0)
        *report = pel_write_ticket(*ticket, memory, bytes);
    *went_wrong = wrong;
    leave();
    munmap(memory, bytes);
    return 1;
}
