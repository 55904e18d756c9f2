/* The stack of each call of include/feeder.h, measured. A call runs on a stack that ends at a page which nobody may touch, in a child of its own, and the least
 * stack on which it does not fault is found to 64 bytes: on a feeder of three buses, and on those of the largest texts, each without a supply and with its first bus as
 * the supply. Then every text of the list that `replay` has (tests/answers.md), and its like with a supply, is tried on as much stack as the header says.
 * usage: stack LIST */
#define _GNU_SOURCE
#include "feeder.h"
#include <stdio.h>
#include <stdlib.h>
#include <string.h>
#include <sys/mman.h>
#include <sys/resource.h>
#include <sys/wait.h>
#include <ucontext.h>
#include <unistd.h>

enum { FINENESS = 64, PAGE = 4096, ROOM = 1 << 20, LONGEST = 1 << 16 };

/* An entry of the list. */
struct entry {
    const char *text, *printed;
    size_t text_length, printed_length;
};

static int checks = 0;
static int failures = 0;

static void expect(int good, const char *name, const char *what) {
    checks++;
    if (!good) {
        failures++;
        printf("interface: stack: wrong: %s: %s\n", name, what);
    }
}

/* What the calls are asked about: a text, its records in bytes, its base, and what its search finds. */
static const uint8_t *text;
static size_t text_length, records_length, switches;
static uint8_t records[LONGEST], present[FEEDER_MAX_SWITCHES], wanted[FEEDER_MAX_SWITCHES], out[FEEDER_FRAMES_LENGTH], back[FEEDER_MOVES_LENGTH];
static volatile uint8_t number;

/* The base, and the states in which a loop or islands are most likely: only a state that is no tree has its pieces counted. */
static const uint8_t all_closed[FEEDER_MAX_SWITCHES];
static uint8_t all_open[FEEDER_MAX_SWITCHES];
static const uint8_t *const states[] = {present, all_closed, all_open};
enum { STATES = sizeof states / sizeof states[0] };

static void ask_radiality(void) {
    for (size_t k = 0; k < STATES; k++)
        number = feeder_radiality(text, text_length, states[k], switches).number;
}
static void ask_form(void) {
    for (size_t k = 0; k < STATES; k++)
        number = feeder_form(text, text_length, states[k], switches).number;
}
static void ask_loss(void) { number = feeder_loss(text, text_length, wanted, switches).number; }
static void ask_plan(void) { number = feeder_plan(text, text_length, present, switches, wanted, switches, out, sizeof out).number; }
/* with no move done, and with as many as a plan has that is a pair or more */
static void ask_resume(void) {
    for (uint64_t count = 0; count <= 2; count += 2)
        number = feeder_resume(text, text_length, present, switches, wanted, switches, count, out, sizeof out, back, sizeof back).number;
}
static void ask_answer_text(void) { number = feeder_answer_text(text, text_length, out, sizeof out).number; }
static void ask_base_state(void) { number = feeder_base_state(text, text_length, out, sizeof out).number; }
static void ask_solve(void) { number = feeder_solve(text, text_length, out, sizeof out).number; }
static void ask_operations(void) {
    number = feeder_operations(text, text_length, present, switches, wanted, switches, out, sizeof out).number;
}
static void ask_write_text(void) { number = feeder_write_text(records, records_length, out, sizeof out).number; }
static void ask_repair_text(void) { number = feeder_repair_text(text, text_length, out, sizeof out).number; }

struct call {
    const char *name;
    void (*ask)(void);
    size_t said;
};

static const struct call calls[] = {
    {"FEEDER_RADIALITY_STACK", ask_radiality, FEEDER_RADIALITY_STACK},
    {"FEEDER_FORM_STACK", ask_form, FEEDER_FORM_STACK},
    {"FEEDER_LOSS_STACK", ask_loss, FEEDER_LOSS_STACK},
    {"FEEDER_PLAN_STACK", ask_plan, FEEDER_PLAN_STACK},
    {"FEEDER_RESUME_STACK", ask_resume, FEEDER_RESUME_STACK},
    {"FEEDER_ANSWER_TEXT_STACK", ask_answer_text, FEEDER_ANSWER_TEXT_STACK},
    {"FEEDER_BASE_STATE_STACK", ask_base_state, FEEDER_BASE_STATE_STACK},
    {"FEEDER_SOLVE_STACK", ask_solve, FEEDER_SOLVE_STACK},
    {"FEEDER_OPERATIONS_STACK", ask_operations, FEEDER_OPERATIONS_STACK},
    {"FEEDER_WRITE_TEXT_STACK", ask_write_text, FEEDER_WRITE_TEXT_STACK},
    {"FEEDER_REPAIR_TEXT_STACK", ask_repair_text, FEEDER_REPAIR_TEXT_STACK},
};
enum { CALLS = sizeof calls / sizeof calls[0] };

static unsigned long digits_at(const char *at, int count) {
    char digits[9] = {0};
    memcpy(digits, at, count);
    return strtoul(digits, NULL, 16);
}

/* A byte for every two characters, but for line feeds; of a refused text any bytes will do. */
static void lay_records(const struct entry *e) {
    const char *at = e->text, *end = e->text + e->text_length;
    records_length = 0;
    while (at + 1 < end && records_length < LONGEST)
        if (*at == '\n')
            at++;
        else {
            records[records_length++] = (uint8_t)digits_at(at, 2);
            at += 2;
        }
}

/* The base from the text's 04 lines, and what differs from it from the printed 82 lines. A refused text has no states. */
static void lay(const struct entry *e) {
    static unsigned long ids[FEEDER_MAX_SWITCHES];
    text = (const uint8_t *)e->text;
    text_length = e->text_length;
    lay_records(e);
    switches = 0;
    if (strncmp(e->printed, "81", 2) != 0)
        return;
    for (const char *at = e->text; at < e->text + e->text_length; at = strchr(at, '\n') + 1)
        if (strncmp(at, "04", 2) == 0) {
            ids[switches] = digits_at(at + 2, 4);
            present[switches++] = digits_at(at + 10, 2) & 1;
        }
    memcpy(wanted, present, sizeof wanted);
    for (const char *at = e->printed; at < e->printed + e->printed_length; at = strchr(at, '\n') + 1)
        for (size_t k = 0; strncmp(at, "82", 2) == 0 && k < switches; k++)
            if (ids[k] == digits_at(at + 2, 4))
                wanted[k] = digits_at(at + 6, 2) == 0;
}

/* The stack: its lowest byte is the first behind a page that faults. */
static char *lowest;
static ucontext_t here, there;

static void make_stack(void) {
    char *pages = mmap(NULL, PAGE + ROOM, PROT_NONE, MAP_PRIVATE | MAP_ANONYMOUS, -1, 0);
    if (pages == MAP_FAILED || mprotect(pages + PAGE, ROOM, PROT_READ | PROT_WRITE) != 0)
        exit(1);
    lowest = pages + PAGE;
}

static void ask_on(size_t size, void (*ask)(void)) {
    getcontext(&there);
    there.uc_stack.ss_sp = lowest;
    there.uc_stack.ss_size = size;
    there.uc_link = &here;
    makecontext(&there, ask, 0);
    swapcontext(&here, &there);
}

static int child_ended(pid_t child) {
    int status;
    if (child < 0 || waitpid(child, &status, 0) != child)
        exit(1);
    return WIFEXITED(status);
}

static int is_enough(size_t size, void (*ask)(void)) {
    pid_t child = fork();
    if (child == 0) {
        ask_on(size, ask);
        _exit(0);
    }
    return child_ended(child);
}

/* The least stack, by halving what lies between one that is too small and one that is enough; a guess is tried first. */
static size_t least(void (*ask)(void), size_t guess) {
    size_t small = 0, enough = ROOM;
    if (!is_enough(ROOM, ask))
        return ROOM + FINENESS;
    if (guess > 0 && is_enough(guess, ask)) {
        enough = guess;
        if (!is_enough(guess - FINENESS, ask))
            small = guess - FINENESS;
    }
    while (enough - small > FINENESS) {
        size_t middle = (small + enough) / 2 / FINENESS * FINENESS;
        if (is_enough(middle, ask))
            enough = middle;
        else
            small = middle;
    }
    return enough;
}

/* Every text of the list on so much stack. */
static int is_enough_for_all(size_t size, void (*ask)(void), const struct entry *entries, size_t count) {
    pid_t child = fork();
    if (child == 0) {
        for (size_t k = 0; k < count; k++) {
            lay(&entries[k]);
            ask_on(size, ask);
        }
        _exit(0);
    }
    return child_ended(child);
}

/* 256 buses, 512 branches and 512 switches; three buses with a plan. */
static int is_largest(const struct entry *e) { return strncmp(e->text, "01010002000200", 14) == 0 && strncmp(e->printed, "81", 2) == 0; }
static int is_small(const struct entry *e) { return strncmp(e->text, "010003", 6) == 0 && memmem(e->printed, e->printed_length, "\n86", 3) != NULL; }
static int is_fed(const struct entry *e) { return e->text_length > 7 && strncmp(e->text + e->text_length - 7, "05", 2) == 0; }

static size_t measure(const struct call *c, const struct entry *entries, size_t count) {
    size_t three = 0, largest = 0, measured[2] = {0, 0};
    for (size_t k = 0; k < count; k++) {
        const struct entry *e = &entries[k];
        if (is_largest(e) || (is_small(e) && measured[is_fed(e)]++ == 0)) {
            lay(e);
            size_t size = least(c->ask, three);
            if (is_largest(e))
                largest = size > largest ? size : largest;
            else
                three = size > three ? size : three;
        }
    }
    expect(measured[0] > 0 && measured[1] > 0, c->name, "no three buses without a supply, or none with one");
    printf("interface: stack: %s %zu: measured %zu with 3 buses, %zu with 256\n", c->name, c->said, three, largest);
    expect(three > 0 && three <= c->said, c->name, "three buses need more");
    expect(largest > 0 && largest <= c->said, c->name, "the largest texts need more");
    expect(is_enough_for_all(c->said, c->ask, entries, count), c->name, "a text of the list needs more");
    return three > largest ? three : largest;
}

static struct entry *read_list(const char *path, size_t *count) {
    FILE *file = fopen(path, "rb");
    char *bytes = calloc(1, 1 << 24);
    struct entry *entries = calloc(1 << 16, sizeof *entries);
    if (file == NULL || bytes == NULL || entries == NULL)
        exit(1);
    char *end = bytes + fread(bytes, 1, (1 << 24) - 1, file);
    for (char *at = bytes; at < end; (*count)++) {
        struct entry *e = &entries[*count];
        e->text_length = digits_at(at, 4);
        e->printed_length = digits_at(at + 4, 4);
        e->text = at + 9;
        e->printed = e->text + e->text_length;
        at += 9 + e->text_length + e->printed_length;
    }
    fclose(file);
    return entries;
}

/* Behind the entries their like with the first bus as the supply, where that is accepted. A wanted state is radial there, as the base is. */
static void feed_all(struct entry *entries, size_t *count) {
    size_t given = *count;
    for (size_t k = 0; k < given; k++) {
        struct entry e = entries[k];
        if (strncmp(e.printed, "81", 2) != 0 || strncmp(e.text + 2, "0000", 4) == 0)
            continue;
        char *fed = malloc(e.text_length + 8);
        if (fed == NULL)
            exit(1);
        memcpy(fed, e.text, e.text_length);
        sprintf(fed + e.text_length, "05%.4s\n", e.text + 39);
        e.text = fed;
        e.text_length += 7;
        if (feeder_base_state((const uint8_t *)e.text, e.text_length, out, sizeof out).number == 0)
            entries[(*count)++] = e;
        else
            free(fed);
    }
}

int main(int words, char **word) {
    const struct rlimit no_core = {0, 0};
    size_t count = 0, greatest = 0;
    if (words != 2)
        return 1;
    struct entry *entries = read_list(word[1], &count);
    feed_all(entries, &count);
    memset(all_open, 1, sizeof all_open);
    make_stack();
    setrlimit(RLIMIT_CORE, &no_core);
    setvbuf(stdout, NULL, _IOLBF, 0);
    for (size_t k = 0; k < CALLS; k++) {
        size_t size = measure(&calls[k], entries, count);
        greatest = size > greatest ? size : greatest;
    }
    expect(FEEDER_STACK >= greatest + greatest / 4, "FEEDER_STACK", "less than the greatest and a quarter");
    expect(FEEDER_STACK % PAGE == 0, "FEEDER_STACK", "no whole pages");
    printf("interface: stack: FEEDER_STACK %d: the greatest and a quarter is %zu\n", FEEDER_STACK, greatest + greatest / 4);
    printf("interface: stack: %d checks, %d wrong\n", checks, failures);
    return failures == 0 ? 0 : 1;
}
