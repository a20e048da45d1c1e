/*
 * A host that makes the requests of a stream and compares each answer with the
 * reference's: the number, every byte of the buffer, of the two bounds or of the
 * nodes' numbers and around it, the totals and what lies around them, and the
 * file, the numbers or the saved record that the call is handed. A first hit's
 * number is also held to the figure of its probes, and no call is to give 13.
 * reference/examples/requests makes the stream and describes it.
 *
 *     replay pages|heap < STREAM
 *
 * With pages, each lent piece lies against an inaccessible page and what is
 * handed over is read-only during the call; with heap, each is a block of
 * exactly its length.
 * Ends "N requests, 0 differ" and with status 0, or with the first difference,
 * or a kind of answer that is rare, and status 1.
 */
#define _DEFAULT_SOURCE
#include "fenalukki.h"
#include "figure.h"
#include "lent.h"

#include <signal.h>
#include <stdio.h>
#include <stdlib.h>
#include <string.h>
#include <unistd.h>

#define HEAD 112
#define KINDS 5
#define QUESTIONS 19
#define NOT_GIVEN 13
/* A kind of answer is rare below one in so many requests. */
#define RARE 1000

enum call {
    FULL_CAST,
    FIRST_HIT,
    COLUMN,
    MARCH,
    VIEW,
    FULL_CAST_COUNTED,
    FIRST_HIT_COUNTED,
    COLUMN_COUNTED,
    MARCH_COUNTED,
    VIEW_COUNTED,
    CHECK,
    BOUNDS,
    WRITE,
    READ,
    RESTORE,
    CALLS
};

struct request {
    unsigned call;
    int damaged;
    uint32_t ray[6], limit, version; /* limit: the budget, or a write's iso */
    size_t handed_len, room, written, place;
    uint64_t before[3], number, after[3];
    uint8_t handed[LENT_MOST]; /* the file, a write's numbers, or a saved record */
    uint8_t expected[4 * 3066];
};

/* The kinds of an answer, by its number's bits from a place on: refused, then these. */
struct kinds {
    unsigned shift;
    const char *const names[KINDS];
};

static const struct kinds cast_kinds = {16, {"refused", "complete", "spent", NULL, NULL}};
static const struct kinds hit_kinds = {32, {"refused", "crossing", "inside", "clear", "spent"}};
static const struct kinds column_kinds = {16, {"refused", "complete", NULL, NULL, NULL}};
static const struct kinds check_kinds = {32, {"refused", "version 1", "version 2", NULL, NULL}};
static const struct kinds bounds_kinds = {16, {"refused", "answered", NULL, NULL, NULL}};
static const struct kinds write_kinds = {
    16, {"refused", "written", "written to byte 65,536", NULL, NULL}};
static const struct kinds restore_kinds = {16, {"refused", "read", NULL, NULL, NULL}};

static const struct {
    const char *name;
    const struct kinds *kinds;
    const char *handed;
} calls[CALLS] = {
    {"full cast", &cast_kinds, "the file"},
    {"first hit", &hit_kinds, "the file"},
    {"column", &column_kinds, "the file"},
    {"marching cast", &cast_kinds, "the file"},
    {"viewer's first hit", &hit_kinds, "the file"},
    {"full cast counted", &cast_kinds, "the file"},
    {"first hit counted", &hit_kinds, "the file"},
    {"column counted", &column_kinds, "the file"},
    {"marching cast counted", &cast_kinds, "the file"},
    {"viewer's first hit counted", &hit_kinds, "the file"},
    {"check of a file", &check_kinds, "the file"},
    {"bounds at a place", &bounds_kinds, "the file"},
    {"write", &write_kinds, "the numbers"},
    {"read", &check_kinds, "the file"},
    {"saved record", &restore_kinds, "the saved record"},
};

static unsigned long requests, damaged, damaged_accepted;
static unsigned long answers[CALLS][KINDS], refusals[QUESTIONS];
static char during_call[64];

static uint32_t number_at(const uint8_t *at)
{
    return at[0] | (uint32_t)at[1] << 8 | (uint32_t)at[2] << 16 | (uint32_t)at[3] << 24;
}

static uint64_t wide_at(const uint8_t *at)
{
    return number_at(at) | (uint64_t)number_at(at + 4) << 32;
}

static void numbers_at(const uint8_t *at, uint32_t *to, size_t count)
{
    size_t i;

    for (i = 0; i < count; i++)
        to[i] = number_at(at + 4 * i);
}

static void wides_at(const uint8_t *at, uint64_t *to, size_t count)
{
    size_t i;

    for (i = 0; i < count; i++)
        to[i] = wide_at(at + 8 * i);
}

static void end_broken(void)
{
    fprintf(stderr, "the stream is broken after %lu requests\n", requests);
    exit(2);
}

/* Reads exactly so many bytes. */
static void read_bytes(uint8_t *to, size_t length)
{
    if (fread(to, 1, length, stdin) != length)
        end_broken();
}

/* Ends the program unless the request's lengths fit. */
static void end_if_broken(const struct request *r)
{
    if (r->call >= CALLS || r->handed_len > LENT_MOST || r->room > LENT_MOST ||
        r->written > r->room || r->written > sizeof r->expected ||
        (r->written > 0 && r->place > r->room - r->written))
        end_broken();
}

/* Reads the next request; answers 0 at the stream's end. */
static int read_request(struct request *r)
{
    uint8_t head[HEAD];
    size_t length = fread(head, 1, HEAD, stdin);

    if (length == 0)
        return 0;
    if (length != HEAD)
        end_broken();
    r->call = head[0];
    r->damaged = head[1];
    r->handed_len = number_at(head + 4);
    numbers_at(head + 8, r->ray, 6);
    r->limit = number_at(head + 32);
    r->room = number_at(head + 36);
    wides_at(head + 40, r->before, 3);
    r->number = wide_at(head + 64);
    wides_at(head + 72, r->after, 3);
    r->written = number_at(head + 96);
    r->place = (size_t)wide_at(head + 100);
    r->version = number_at(head + 108);
    end_if_broken(r);
    read_bytes(r->handed, r->handed_len);
    read_bytes(r->expected, r->written);
    return 1;
}

/* Makes a viewer's call. */
static uint64_t viewer_answer(const struct request *r, const uint8_t *file, uint64_t *totals)
{
    float c[6];

    memcpy(c, r->ray, sizeof c);
    if (r->call == VIEW)
        return fenalukki_viewer_first_hit(file, r->handed_len, c[0], c[1], c[2], c[3], c[4], c[5],
                                          r->limit);
    return fenalukki_viewer_first_hit_counted(file, r->handed_len, c[0], c[1], c[2], c[3], c[4],
                                              c[5], r->limit, totals);
}

/* Makes a counted call on a ray in steps. */
static uint64_t counted_answer(const struct request *r, const int32_t *c, const uint8_t *file,
                               uint8_t *buffer, uint64_t *totals)
{
    switch (r->call) {
    case FULL_CAST_COUNTED:
        return fenalukki_full_cast_counted(file, r->handed_len, c[0], c[1], c[2], c[3], c[4], c[5],
                                           r->limit, buffer, r->room, totals);
    case FIRST_HIT_COUNTED:
        return fenalukki_first_hit_counted(file, r->handed_len, c[0], c[1], c[2], c[3], c[4], c[5],
                                           r->limit, totals);
    case COLUMN_COUNTED:
        return fenalukki_column_counted(file, r->handed_len, c[0], c[1], c[2], c[3], c[4], c[5],
                                        buffer, r->room, totals);
    default:
        return fenalukki_marching_cast_counted(file, r->handed_len, c[0], c[1], c[2], c[3], c[4],
                                               c[5], r->limit, buffer, r->room, totals);
    }
}

/* Makes a casting call. */
static uint64_t cast_answer(const struct request *r, const uint8_t *file, uint8_t *buffer,
                            uint64_t *totals)
{
    int32_t c[6];

    memcpy(c, r->ray, sizeof c);
    switch (r->call) {
    case FULL_CAST:
        return fenalukki_full_cast(file, r->handed_len, c[0], c[1], c[2], c[3], c[4], c[5],
                                   r->limit, buffer, r->room);
    case FIRST_HIT:
        return fenalukki_first_hit(file, r->handed_len, c[0], c[1], c[2], c[3], c[4], c[5],
                                   r->limit);
    case COLUMN:
        return fenalukki_column(file, r->handed_len, c[0], c[1], c[2], c[3], c[4], c[5], buffer,
                                r->room);
    case MARCH:
        return fenalukki_marching_cast(file, r->handed_len, c[0], c[1], c[2], c[3], c[4], c[5],
                                       r->limit, buffer, r->room);
    case VIEW:
    case VIEW_COUNTED:
        return viewer_answer(r, file, totals);
    default:
        return counted_answer(r, c, file, buffer, totals);
    }
}

/* Makes a call. */
static uint64_t answer(const struct request *r, const uint8_t *handed, uint8_t *buffer,
                       uint64_t *totals)
{
    int32_t c[3];

    memcpy(c, r->ray, sizeof c);
    switch (r->call) {
    case CHECK:
        return fenalukki_check(handed, r->handed_len);
    case BOUNDS:
        return fenalukki_place_bounds(handed, r->handed_len, c[0], c[1], c[2],
                                      (int64_t *)(void *)buffer);
    case WRITE:
        return fenalukki_write((const int32_t *)(const void *)handed, r->handed_len / 4, r->limit,
                               r->version, buffer, r->room, r->place);
    case READ:
        return fenalukki_read(handed, r->handed_len, (int32_t *)(void *)buffer);
    case RESTORE:
        return fenalukki_restore_totals(handed, r->handed_len, totals);
    default:
        return cast_answer(r, handed, buffer, totals);
    }
}

static int differs(const struct request *r, const char *where, const char *what)
{
    if (what != NULL)
        printf("request %lu, %s: %s: difference in %s\n", requests, calls[r->call].name, where,
               what);
    return what != NULL;
}

/* Holds the number of a first hit to the figure. */
static int breaks_figure(const struct request *r, uint64_t number)
{
    int is_hit = calls[r->call].kinds == &hit_kinds;
    const char *what = is_hit ? broken_figure(number, r->limit) : NULL;

    if (what != NULL)
        printf("request %lu, %s: %s\n", requests, calls[r->call].name, what);
    return what != NULL;
}

/* Makes the request and compares; answers whether anything differs. */
static int replay(const struct request *r, struct lent *handed, struct lent *buffer,
                  struct lent *totals)
{
    uint64_t number;
    const uint8_t *handed_bytes = lend(handed, r->handed, r->handed_len);
    uint8_t *buffer_bytes = lend(buffer, NULL, r->room);
    uint64_t *three = (uint64_t *)(void *)lend(totals, r->before, sizeof r->before);
    int found;

    lent_protect(handed);
    snprintf(during_call, sizeof during_call, "request %lu, %s: ", requests, calls[r->call].name);
    number = answer(r, handed_bytes, buffer_bytes, three);
    during_call[0] = 0;
    found = differs(r, calls[r->call].handed, take_back(handed, r->handed, r->handed_len));
    found |= differs(r, "the buffer", take_back_from(buffer, r->place, r->expected, r->written));
    found |= differs(r, "the totals", take_back(totals, r->after, sizeof r->after));
    found |= breaks_figure(r, number);
    if (number == NOT_GIVEN) {
        printf("request %lu, %s: refused with 13\n", requests, calls[r->call].name);
        found = 1;
    }
    if (number == r->number)
        return found;
    printf("request %lu, %s: answered %llu, expected %llu\n", requests, calls[r->call].name,
           (unsigned long long)number, (unsigned long long)r->number);
    return 1;
}

static void count(const struct request *r)
{
    uint64_t kind = r->number >> calls[r->call].kinds->shift;
    int refused = r->number < QUESTIONS;

    if (kind >= KINDS)
        end_broken();
    damaged += r->damaged != 0;
    damaged_accepted += r->damaged && !refused;
    answers[r->call][kind]++;
    if (refused)
        refusals[r->number]++;
}

/* Prints how many of a kind there were; answers whether they are rare. */
static int print_count(const char *name, unsigned long number)
{
    int rare = number < requests / RARE;

    printf(" %s %lu%s", name, number, rare ? " (rare)" : "");
    return rare;
}

static int print_call(unsigned call)
{
    const char *const *kinds = calls[call].kinds->names;
    int rare = 0, kind;

    printf("%s:", calls[call].name);
    for (kind = 0; kind < KINDS && kinds[kind] != NULL; kind++)
        rare |= print_count(kinds[kind], answers[call][kind]);
    printf("\n");
    return rare;
}

static int print_refusals(void)
{
    int rare = 0, question;
    char name[16];

    printf("refused with");
    for (question = 1; question < QUESTIONS; question++) {
        if (question == NOT_GIVEN)
            continue;
        snprintf(name, sizeof name, "%d:", question);
        rare |= print_count(name, refusals[question]);
    }
    printf("\n");
    return rare;
}

/* Prints the counts; answers whether a kind is rare. */
static int print_counts(void)
{
    int rare = 0;
    unsigned call;

    for (call = 0; call < CALLS; call++)
        rare |= print_call(call);
    rare |= print_refusals();
    printf("on damaged files, drawings and saved records:");
    rare |= print_count("all", damaged);
    rare |= print_count("accepted", damaged_accepted);
    printf("\n");
    return rare;
}

/* An access to a page that was not lent. */
static void on_fault(int number)
{
    static const char text[] = "an access outside the lent bytes, or a write to those handed over\n";
    ssize_t put = write(1, during_call, strlen(during_call));

    put += write(1, text, sizeof text - 1);
    (void)number;
    _exit(put > 0 && during_call[0] != 0 ? 1 : 2);
}

static void catch_faults(void)
{
    static uint8_t stack[65536];
    stack_t other = {0};
    struct sigaction action;

    other.ss_sp = stack;
    other.ss_size = sizeof stack;
    memset(&action, 0, sizeof action);
    action.sa_handler = on_fault;
    action.sa_flags = SA_ONSTACK;
    if (sigaltstack(&other, NULL) != 0 || sigaction(SIGSEGV, &action, NULL) != 0 ||
        sigaction(SIGBUS, &action, NULL) != 0) {
        perror("signals");
        exit(2);
    }
}

int main(int argc, char **argv)
{
    static struct request request;
    static struct lent handed, buffer, totals;
    int on_pages = argc == 2 && strcmp(argv[1], "pages") == 0;

    if (!on_pages && !(argc == 2 && strcmp(argv[1], "heap") == 0)) {
        fprintf(stderr, "replay pages|heap < STREAM\n");
        return 2;
    }
    lent_open(&handed, on_pages);
    lent_open(&buffer, on_pages);
    lent_open(&totals, on_pages);
    if (on_pages)
        catch_faults();
    while (read_request(&request)) {
        requests++;
        if (replay(&request, &handed, &buffer, &totals))
            return 1;
        count(&request);
    }
    if (print_counts())
        return 1;
    printf("%lu requests, 0 differ\n", requests);
    return 0;
}
