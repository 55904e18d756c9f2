/* The calls of include/feeder.h from C: good and refused input, up to two switches on a branch, the largest feeders, null pointers, and the bytes of a lent slice that
 * no call may touch. Forms, plans and repairs are reckoned here from the lines of a text. Runs on a thread with a stack of FEEDER_STACK bytes. */
#include "feeder.h"
#include <pthread.h>
#include <stdio.h>
#include <string.h>

#define ONE "3FF0000000000000"
#define ZERO "0000000000000000"
#define HEAD_OF(method_and_iterations) "010003000300023FF0000000000000" method_and_iterations "\n"
#define HEAD HEAD_OF("000064")
#define BUS_1 "0200010000000000000000\n"
#define BUS_2 "0200023FF0000000000000\n"
#define BUS_LINES BUS_1 BUS_2 "0200034000000000000000\n"
#define BRANCH_LINES "03000100023FD000000000000001\n03000200033FDC00000000000001\n03000100033FC800000000000001\n"
#define RECORDS BUS_LINES BRANCH_LINES
#define SWITCHES "04000A000102\n04000B000203\n"
#define TRIANGLE HEAD RECORDS SWITCHES
#define LOCKED HEAD RECORDS "04000A000100\n04000B000203\n"
#define NO_TIES HEAD RECORDS "04000A000102\n04000B000202\n"
#define NO_BUSES "010000000000003FF0000000000000000064\n"
/* the triangle with another number of switches, a u16 in digits; and with a switch at each end of branches 1 and 2: 12 and 11 on branch 2, 10 and 13, which is locked, on branch 1 */
#define HEAD_FOR(switches, method_and_iterations) "0100030003" switches ONE method_and_iterations "\n"
#define FOUR_SWITCHES "04000C000203\n04000A000102\n04000B000203\n04000D000100\n"
#define BOTH_ENDS HEAD_FOR("0004", "000064") RECORDS FOUR_SWITCHES
#define THREE_ON_A_BRANCH HEAD_FOR("0003", "000064") RECORDS "04000A000102\n04000B000103\n04000C000102\n"
/* document 02's last line, and the triangle with branch 0 turned */
#define SUPPLY_1 "050001\n"
#define SUPPLY_3 "050003\n"
#define TURNED HEAD BUS_LINES "03000200013FD000000000000001\n03000200033FDC00000000000001\n03000100033FC800000000000001\n" SWITCHES

enum { GUARD = 0xAA, ROOM = 64, MARGIN = 16 };

static int checks = 0;
static int failures = 0;

/* A lent slice between guard bytes, and what must stand there. */
static uint8_t bytes[MARGIN + FEEDER_FRAMES_LENGTH + MARGIN];
static uint8_t right[sizeof bytes];

static void expect(int good, const char *what) {
    checks++;
    if (!good) {
        failures++;
        printf("interface: C: wrong: %s\n", what);
    }
}

static void expect_answer(struct feeder_answer a, unsigned number, unsigned place, uint64_t value, const char *what) {
    expect(a.number == number && a.place == place && a.value == value, what);
    if (a.number != number || a.place != place || a.value != value)
        printf("  answered %u %u %llX\n", a.number, a.place, (unsigned long long)a.value);
}

static struct feeder_answer form(const char *text, const char *state, size_t length) {
    return feeder_form((const uint8_t *)text, strlen(text), (const uint8_t *)state, length);
}

/* Wherever radiality is asked, the form is refused alike, and is a tree exactly where the state is radial. */
static struct feeder_answer radiality(const char *text, const char *state, size_t length) {
    struct feeder_answer answer = feeder_radiality((const uint8_t *)text, strlen(text), (const uint8_t *)state, length);
    struct feeder_answer formed = form(text, state, length);
    expect(formed.number == answer.number && formed.place == answer.place, "the form is refused as radiality is");
    expect(answer.number == 0 ? (formed.value == FEEDER_TREE) == (answer.value == 1) : formed.value == 0, "a tree exactly where the state is radial");
    return answer;
}

static struct feeder_answer loss(const char *text, const char *state, size_t length) {
    return feeder_loss((const uint8_t *)text, strlen(text), (const uint8_t *)state, length);
}

static uint64_t bits(double x) {
    uint64_t b;
    memcpy(&b, &x, sizeof b);
    return b;
}

static unsigned digits_at(const char *at, int count) {
    unsigned number = 0;
    for (int k = 0; k < count; k++)
        number = number * 16 + (unsigned)(strchr("0123456789ABCDEF", at[k]) - "0123456789ABCDEF");
    return number;
}

/* The upper bits of a multiplied seed. */
static unsigned draw(unsigned bound) {
    static uint64_t seed = 1;
    seed = seed * 6364136223846793005u + 1442695040888963407u;
    return (unsigned)((seed >> 33) % bound);
}

static void radialities(void) {
    expect_answer(radiality(TRIANGLE, "\0\1", 2), 0, 0, 1, "the base is radial");
    expect_answer(radiality(TRIANGLE, "\1\0", 2), 0, 0, 1, "the exchanged state is radial");
    expect_answer(radiality(TRIANGLE, "\0\0", 2), 0, 0, 0, "all closed is not radial");
    expect_answer(radiality(TRIANGLE, "\1\1", 2), 0, 0, 0, "all open is not radial");
    expect_answer(radiality(NO_BUSES, "", 0), 0, 0, 1, "no buses are radial");
    expect_answer(radiality(TRIANGLE, "\0\2", 2), 10, 0, 0, "a state's byte 2");
    expect_answer(radiality(TRIANGLE, "\0", 1), 10, 0, 0, "a state one byte short");
    expect_answer(radiality(TRIANGLE, "\0\1\0", 3), 10, 0, 0, "a state one byte long");
    expect_answer(radiality("", "\2", 1), 2, 1, 0, "an empty text comes before a faulty state");
    expect_answer(radiality("0G", "\0\1", 2), 1, 1, 0, "another character");
    expect_answer(radiality(HEAD RECORDS "04000A000102\n", "\0\1", 2), 2, 9, 0, "a missing line");
    expect_answer(radiality(HEAD RECORDS "04000A000102\n04000A000203\n", "\0\1", 2), 7, 9, 0, "a switch id twice");
}

/* The form of a state, reckoned from the lines of an accepted text. */
static unsigned ends[FEEDER_MAX_BRANCHES][2];
static uint8_t live[FEEDER_MAX_BRANCHES], reached[FEEDER_MAX_BUSES];
static size_t bus_count, branch_count;

static unsigned position_of(const unsigned *ids, unsigned id) {
    unsigned k = 0;
    while (ids[k] != id)
        k++;
    return k;
}

/* The ends of the branches by position, and which branches are live: those with status 01 on which no switch is open. */
static void lay_branches(const char *text, const char *state) {
    static unsigned ids[FEEDER_MAX_BUSES];
    bus_count = branch_count = 0;
    for (; *text != '\0'; text = strchr(text, '\n') + 1)
        if (strncmp(text, "02", 2) == 0) {
            ids[bus_count++] = digits_at(text + 2, 4);
        } else if (strncmp(text, "03", 2) == 0) {
            ends[branch_count][0] = position_of(ids, digits_at(text + 2, 4));
            ends[branch_count][1] = position_of(ids, digits_at(text + 6, 4));
            live[branch_count++] = digits_at(text + 26, 2) == 1;
        } else if (strncmp(text, "04", 2) == 0 && *state++ == 1) {
            live[digits_at(text + 6, 4)] = 0;
        }
}

/* Every bus that the live branches before `bound` join with this one, added to those that are reached. */
static void flood(unsigned bus, size_t bound) {
    int more = 1;
    reached[bus] = 1;
    while (more) {
        more = 0;
        for (size_t k = 0; k < bound; k++)
            if (live[k] && reached[ends[k][0]] != reached[ends[k][1]])
                reached[ends[k][0]] = reached[ends[k][1]] = more = 1;
    }
}

static int joined_before(size_t k) {
    memset(reached, 0, sizeof reached);
    flood(ends[k][0], k);
    return reached[ends[k][1]];
}

/* Each bus that no flood before it reached is a piece. The first branch that closes a loop is found by a flood for each. */
static uint64_t reckoned_form(const char *text, const char *state) {
    uint64_t pieces = 0;
    size_t branch = 0;
    lay_branches(text, state);
    memset(reached, 0, sizeof reached);
    for (unsigned bus = 0; bus < bus_count; bus++)
        if (!reached[bus]) {
            pieces++;
            flood(bus, branch_count);
        }
    while (branch < branch_count && !(live[branch] && joined_before(branch)))
        branch++;
    return (pieces == 0 ? 0 : pieces - 1) * 65536 + (branch < branch_count ? branch : 65535);
}

static void is_formed(const char *text, const char *state, size_t length, const char *what) {
    uint64_t reckoned = reckoned_form(text, state);
    expect_answer(form(text, state, length), 0, 0, reckoned, what);
    expect_answer(radiality(text, state, length), 0, 0, reckoned == 65535, what);
}

/* The same where the islands and the branch are known by hand. */
static void has_form(const char *text, const char *state, size_t length, uint64_t islands, uint64_t branch, const char *what) {
    struct feeder_answer answer = form(text, state, length);
    is_formed(text, state, length, what);
    expect(answer.value / 65536 == islands && answer.value % 65536 == branch, what);
}

/* A branch by the positions of its ends, and its status. */
struct branch {
    unsigned from, to, status;
};
enum { NO_BRANCH = 65535, FEW = 8 };

/* So many buses, their ids falling, and a switch on each branch. The switches are listed from the last branch to the first: "first" is by the branches' positions. */
static const char *feeder_of(unsigned buses, const struct branch *branches, unsigned count) {
    static char text[37 + FEEDER_MAX_BUSES * 23 + FEW * (29 + 13) + 1];
    char *at = text + sprintf(text, "01%04X%04X%04X" ONE "000000\n", buses, count, count);
    for (unsigned bus = 0; bus < buses; bus++)
        at += sprintf(at, "02%04X" ZERO "\n", 999 - bus);
    for (unsigned k = 0; k < count; k++)
        at += sprintf(at, "03%04X%04X" ONE "%02X\n", 999 - branches[k].from, 999 - branches[k].to, branches[k].status);
    for (unsigned k = 0; k < count; k++)
        at += sprintf(at, "04%04X%04X02\n", k, count - 1 - k);
    return text;
}

/* Feeders, and the islands and the first branch of a loop with all switches closed, by hand. */
static const struct named {
    unsigned buses, count;
    struct branch branches[FEW];
    unsigned islands, first;
    const char *what;
} named[] = {
    {1, 0, {{0, 0, 0}}, 0, NO_BRANCH, "one bus is a tree"},
    {2, 0, {{0, 0, 0}}, 1, NO_BRANCH, "two buses without a branch"},
    {FEEDER_MAX_BUSES, 0, {{0, 0, 0}}, FEEDER_MAX_BUSES - 1, NO_BRANCH, "256 buses without a branch"},
    {2, 1, {{0, 1, 1}}, 0, NO_BRANCH, "two buses and a branch"},
    {2, 1, {{0, 1, 0}}, 1, NO_BRANCH, "two buses and a branch out of service"},
    {2, 2, {{0, 1, 1}, {0, 1, 1}}, 0, 1, "two parallel branches"},
    {2, 2, {{0, 1, 1}, {1, 0, 1}}, 0, 1, "two parallel branches, drawn against each other"},
    {2, 2, {{0, 1, 1}, {1, 0, 0}}, 0, NO_BRANCH, "two parallel branches, one out of service"},
    {4, 3, {{0, 1, 1}, {1, 2, 1}, {2, 0, 1}}, 1, 2, "a loop and a bus apart, with as many branches as a tree"},
    {3, 4, {{0, 1, 1}, {1, 0, 1}, {1, 2, 1}, {2, 0, 1}}, 0, 1, "a parallel before the branch that closes a ring"},
    {4, 3, {{0, 1, 1}, {1, 2, 1}, {2, 0, 0}}, 1, NO_BRANCH, "a ring whose last branch is out of service, and an island"},
    {6, 6, {{0, 1, 1}, {3, 4, 1}, {4, 5, 1}, {5, 3, 1}, {1, 2, 1}, {2, 0, 1}}, 1, 3, "two rings apart: the one that is closed first"},
    {5, 7, {{4, 3, 1}, {0, 1, 1}, {1, 2, 1}, {2, 3, 1}, {0, 4, 1}, {2, 0, 1}, {1, 3, 1}}, 0, 4, "two pieces that are joined before a loop is closed"},
    {8, 8, {{7, 6, 1}, {5, 7, 0}, {6, 7, 1}, {1, 2, 1}, {2, 1, 1}, {4, 5, 0}, {0, 7, 1}, {3, 1, 1}}, 3, 2, "loops and islands"},
};

/* With all switches closed, and in every state. */
static void all_forms(const struct named *one) {
    static char state[FEW];
    const char *text = feeder_of(one->buses, one->branches, one->count);
    memset(state, 0, sizeof state);
    has_form(text, state, one->count, one->islands, one->first, one->what);
    for (unsigned open = 1; open < 1u << one->count; open++) {
        for (unsigned k = 0; k < one->count; k++)
            state[k] = open >> k & 1;
        is_formed(text, state, one->count, one->what);
    }
}

static void forms(void) {
    has_form(TRIANGLE, "\0\1", 2, 0, NO_BRANCH, "the base is a tree");
    has_form(TRIANGLE, "\1\0", 2, 0, NO_BRANCH, "the exchanged state is a tree");
    has_form(TRIANGLE, "\0\0", 2, 0, 2, "all closed is a loop");
    has_form(TRIANGLE, "\1\1", 2, 1, NO_BRANCH, "all open is an island");
    has_form(NO_BUSES, "", 0, 0, NO_BRANCH, "no buses are a tree");
    for (size_t k = 0; k < sizeof named / sizeof named[0]; k++)
        all_forms(&named[k]);
    expect_answer(form(TRIANGLE, "\0\2", 2), FEEDER_BAD_STATE, 0, 0, "form, a state's byte 2");
    expect_answer(form(TRIANGLE, "\0", 1), FEEDER_BAD_STATE, 0, 0, "form, a state one byte short");
    expect_answer(form(TRIANGLE, "\0\1\0", 3), FEEDER_BAD_STATE, 0, 0, "form, a state one byte long");
    expect_answer(form(NO_BUSES, "\0", 1), FEEDER_BAD_STATE, 0, 0, "form, a state of no switches one byte long");
    expect_answer(form("", "\2", 1), FEEDER_BAD_LINE, 1, 0, "form, an empty text comes before a faulty state");
    expect_answer(form("0G", "\0\1", 2), FEEDER_BAD_CHARACTERS, 1, 0, "form, another character");
    expect_answer(form(HEAD RECORDS "04000A000102\n", "\0\1", 2), FEEDER_BAD_LINE, 9, 0, "form, a missing line");
    expect_answer(form(HEAD RECORDS "04000A000102\n04000A000203\n", "\0\1", 2), FEEDER_ID_TWICE, 9, 0, "form, a switch id twice");
}

static void losses(void) {
    expect_answer(loss(TRIANGLE, "\0\1", 2), 0, 0, bits(4.0), "the base's loss");
    expect_answer(loss(TRIANGLE, "\1\0", 2), 0, 0, bits(1.0), "the exchanged state's loss");
    expect_answer(loss(TRIANGLE, "\0\0", 2), 0, 0, bits(5.6875), "the loss with all closed");
    expect_answer(loss(NO_BUSES, "", 0), 0, 0, 0, "no buses lose nothing");
    expect_answer(loss(TRIANGLE, "\0\377", 2), 10, 0, 0, "a state's byte FF");
    expect_answer(loss(TRIANGLE, "", 0), 10, 0, 0, "an empty state");
    expect_answer(loss("0101010000000000000000000000000000\n", "", 0), 2, 1, 0, "a head of another length");
    expect_answer(loss("01010100000000" "3FF0000000000000" "000064\n", "", 0), 4, 1, 0, "257 buses");
}

/* `written` is what must stand at the front of the slice. */
static void lay_slice(const char *written, size_t length) {
    memset(bytes, GUARD, sizeof bytes);
    memset(right, GUARD, sizeof right);
    memcpy(right + MARGIN, written, length);
}

/* A plan into the middle of guarded bytes. */
static void plan(const char *text, const char *present, size_t present_length, const char *wanted, size_t wanted_length, size_t room,
                 unsigned number, unsigned place, uint64_t value, const char *written, const char *what) {
    lay_slice(written, strlen(written));
    expect_answer(feeder_plan((const uint8_t *)text, strlen(text), (const uint8_t *)present, present_length,
                              (const uint8_t *)wanted, wanted_length, bytes + MARGIN, room),
                  number, place, value, what);
    expect(memcmp(bytes, right, sizeof bytes) == 0, what);
}

static void plans(void) {
    plan(TRIANGLE, "\0\1", 2, "\1\0", 2, ROOM, 0, 0, 1, "8601000B01000A\n", "one pair, the rest of the slice kept");
    plan(TRIANGLE, "\0\1", 2, "\1\0", 2, 15, 0, 0, 1, "8601000B01000A\n", "one pair, an exactly full slice");
    plan(TRIANGLE, "\1\0", 2, "\0\1", 2, 16, 0, 0, 1, "8601000A01000B\n", "the way back");
    plan(TRIANGLE, "\0\1", 2, "\0\1", 2, 0, 0, 0, 0, "", "equal states, no room needed");
    plan(TRIANGLE, "\0\1", 2, "\1\0", 2, 14, 13, 0, 0, "", "one byte short");
    plan(TRIANGLE, "\0\1", 2, "\1\0", 2, 0, 13, 0, 0, "", "no room");
    plan(LOCKED, "\0\1", 2, "\1\0", 2, 0, 12, 10, 0, "", "switch 10 locked, before the room");
    plan(LOCKED, "\0\0", 2, "\1\0", 2, ROOM, 11, 0, 0, "", "the present state is not radial");
    plan(LOCKED, "\0\1", 2, "\1\1", 2, ROOM, 11, 1, 0, "", "the wanted state is not radial");
    plan(TRIANGLE, "\0\0", 2, "\2\0", 2, ROOM, 10, 1, 0, "", "a faulty wanted state before a present one that is not radial");
    plan(TRIANGLE, "\0", 1, "\2\0", 2, ROOM, 10, 0, 0, "", "a short present state before a faulty wanted one");
    plan(HEAD RECORDS, "\0", 1, "\2", 1, 0, 2, 8, 0, "", "the text before the states");
    plan(TRIANGLE "04", "\0\1", 2, "\1\0", 2, ROOM, 1, 10, 0, "", "an unended line too many");
}

/* A plan that was cut off writes into two slices, each between guard bytes of its own. */
struct lent {
    uint8_t bytes[MARGIN + FEEDER_MOVES_LENGTH + MARGIN], right[MARGIN + FEEDER_MOVES_LENGTH + MARGIN];
};
static struct lent remaining, back;

static void lay_lent(struct lent *slice, const char *written) {
    memset(slice->bytes, GUARD, sizeof slice->bytes);
    memset(slice->right, GUARD, sizeof slice->right);
    memcpy(slice->right + MARGIN, written, strlen(written));
}

static int is_right(const struct lent *slice) { return memcmp(slice->bytes, slice->right, sizeof slice->bytes) == 0; }

/* `left` and `undone` are what must stand at the fronts of the two slices. */
static void resume(const char *text, const char *present, size_t present_length, const char *wanted, size_t wanted_length, uint64_t count,
                   size_t room, size_t back_room, unsigned number, unsigned place, uint64_t value, const char *left, const char *undone,
                   const char *what) {
    lay_lent(&remaining, left);
    lay_lent(&back, undone);
    expect_answer(feeder_resume((const uint8_t *)text, strlen(text), (const uint8_t *)present, present_length, (const uint8_t *)wanted,
                                wanted_length, count, remaining.bytes + MARGIN, room, back.bytes + MARGIN, back_room),
                  number, place, value, what);
    expect(is_right(&remaining) && is_right(&back), what);
}

/* Counts that are above every plan's moves, however many of their bits are looked at. */
static const uint64_t too_many[] = {513, 514, 65535, 65536, 65538, (uint64_t)1 << 32, ((uint64_t)1 << 32) + 2, (uint64_t)1 << 63, UINT64_MAX};
enum { TOO_MANY = sizeof too_many / sizeof too_many[0] };

static void resumed_plans(void) {
    static uint8_t one_behind_the_other[18];
    resume(TRIANGLE, "\0\1", 2, "\1\0", 2, 0, ROOM, ROOM, 0, 0, 2, "82000B01\n82000A00\n", "", "no move done, the rest of the slices kept");
    resume(TRIANGLE, "\0\1", 2, "\1\0", 2, 1, ROOM, ROOM, 0, 0, 1, "82000A00\n", "82000B00\n", "the closing done");
    resume(TRIANGLE, "\0\1", 2, "\1\0", 2, 2, ROOM, ROOM, 0, 0, 0, "", "82000A01\n82000B00\n", "both moves done");
    resume(TRIANGLE, "\1\0", 2, "\0\1", 2, 1, 9, 9, 0, 0, 1, "82000B00\n", "82000A00\n", "the plan the other way, exactly full slices");
    resume(TRIANGLE, "\0\1", 2, "\0\1", 2, 0, 0, 0, 0, 0, 0, "", "", "equal states, no room needed");
    resume(TRIANGLE, "\0\1", 2, "\0\1", 2, 1, ROOM, ROOM, FEEDER_TOO_MANY_MOVES, 0, 0, "", "", "equal states, a move done");
    resume(TRIANGLE, "\0\1", 2, "\1\0", 2, 0, 18, 0, 0, 0, 2, "82000B01\n82000A00\n", "", "no room to go back, and none needed");
    resume(TRIANGLE, "\0\1", 2, "\1\0", 2, 2, 0, 18, 0, 0, 0, "", "82000A01\n82000B00\n", "no room to go on, and none needed");
    resume(TRIANGLE, "\0\1", 2, "\1\0", 2, 0, 17, ROOM, FEEDER_NO_ROOM, 0, 0, "", "", "no move done, one byte short");
    resume(TRIANGLE, "\0\1", 2, "\1\0", 2, 2, ROOM, 17, FEEDER_NO_ROOM, 0, 0, "", "", "both moves done, one byte short");
    resume(TRIANGLE, "\0\1", 2, "\1\0", 2, 1, 8, ROOM, FEEDER_NO_ROOM, 0, 0, "", "", "the closing done, the first slice one byte short");
    resume(TRIANGLE, "\0\1", 2, "\1\0", 2, 1, ROOM, 8, FEEDER_NO_ROOM, 0, 0, "", "", "the closing done, the second slice one byte short");
    resume(TRIANGLE, "\0\1", 2, "\1\0", 2, 1, 8, 8, FEEDER_NO_ROOM, 0, 0, "", "", "the closing done, each slice one byte short");
    resume(TRIANGLE, "\0\1", 2, "\1\0", 2, 1, 0, 0, FEEDER_NO_ROOM, 0, 0, "", "", "the closing done, no room");
    resume(TRIANGLE, "\0\1", 2, "\1\0", 2, 3, 0, 0, FEEDER_TOO_MANY_MOVES, 0, 0, "", "", "a move too many, before the room");
    for (size_t k = 0; k < TOO_MANY; k++)
        resume(TRIANGLE, "\0\1", 2, "\1\0", 2, too_many[k], ROOM, ROOM, FEEDER_TOO_MANY_MOVES, 0, 0, "", "", "many moves too many");
    resume(LOCKED, "\0\1", 2, "\1\0", 2, UINT64_MAX, 0, 0, FEEDER_LOCKED, 10, 0, "", "", "switch 10 locked, before the count and the room");
    resume(LOCKED, "\0\0", 2, "\1\0", 2, UINT64_MAX, 0, 0, FEEDER_NOT_RADIAL, 0, 0, "", "", "the present state is not radial");
    resume(LOCKED, "\0\1", 2, "\1\1", 2, UINT64_MAX, 0, 0, FEEDER_NOT_RADIAL, 1, 0, "", "", "the wanted state is not radial");
    resume(TRIANGLE, "\0\0", 2, "\1\0", 2, 1, ROOM, ROOM, FEEDER_NOT_RADIAL, 0, 0, "", "", "the state after the cut is no present state");
    resume(TRIANGLE, "\0\0", 2, "\2\0", 2, 9, 0, 0, FEEDER_BAD_STATE, 1, 0, "", "", "a faulty wanted state before a present one that is not radial");
    resume(TRIANGLE, "\0", 1, "\2\0", 2, 9, 0, 0, FEEDER_BAD_STATE, 0, 0, "", "", "a short present state before a faulty wanted one");
    resume(TRIANGLE, "\0\1\0", 3, "\1\0", 2, 1, ROOM, ROOM, FEEDER_BAD_STATE, 0, 0, "", "", "a present state one byte long");
    resume(HEAD RECORDS, "\0", 1, "\2", 1, 9, 0, 0, FEEDER_BAD_LINE, 8, 0, "", "", "the text before the states");
    resume(TRIANGLE "04", "\0\1", 2, "\1\0", 2, 1, ROOM, ROOM, FEEDER_BAD_CHARACTERS, 10, 0, "", "", "an unended line too many");

    expect_answer(feeder_resume((const uint8_t *)TRIANGLE, strlen(TRIANGLE), (const uint8_t *)"\0\1", 2, (const uint8_t *)"\1\0", 2, 1,
                                one_behind_the_other + 9, 9, one_behind_the_other, 9),
                  0, 0, 1, "two slices that touch");
    expect(memcmp(one_behind_the_other, "82000B00\n82000A00\n", 18) == 0, "two slices that touch");
}

/* A pair of a plan, out of its 86 line: the ids that it closes, and those that it opens. */
struct ids {
    unsigned count, id[FEEDER_MAX_SWITCHES_ON_BRANCH];
};
struct pair {
    struct ids closed, opened;
};
static struct pair pairs[FEEDER_MAX_BUSES - 1];

/* A single move: the id of a switch, and 1 where it is closed, 0 where it is opened, as in an 82 line. */
struct move {
    unsigned id, closes;
};
static struct move moves[FEEDER_MAX_SWITCHES];

/* The switches of an accepted text, in its order. */
static struct listed {
    unsigned id, branch, operable;
} listed[FEEDER_MAX_SWITCHES];

static size_t lay_switches(const char *text) {
    size_t count = 0;
    for (; *text != '\0'; text = strchr(text, '\n') + 1)
        if (strncmp(text, "04", 2) == 0) {
            struct listed one = {digits_at(text + 2, 4), digits_at(text + 6, 4), digits_at(text + 10, 2) >> 1};
            listed[count++] = one;
        }
    return count;
}

/* The ids that stand behind their count, and what is behind them; NULL where they are none or too many. */
static const char *read_ids(const char *at, struct ids *ids) {
    ids->count = digits_at(at, 2);
    if (ids->count == 0 || ids->count > FEEDER_MAX_SWITCHES_ON_BRANCH)
        return NULL;
    at += 2;
    for (unsigned k = 0; k < ids->count; k++, at += FEEDER_ID_LENGTH)
        ids->id[k] = digits_at(at, FEEDER_ID_LENGTH);
    return at;
}

/* The next line; NULL where this is no 86 line. */
static const char *read_pair(const char *line, struct pair *pair) {
    const char *at = strncmp(line, "86", 2) == 0 ? read_ids(line + 2, &pair->closed) : NULL;
    if (at != NULL)
        at = read_ids(at, &pair->opened);
    return at != NULL && *at == '\n' ? at + 1 : NULL;
}

static size_t lay_moves_of(const struct ids *ids, unsigned closes, size_t count) {
    for (unsigned k = 0; k < ids->count; k++) {
        struct move one = {ids->id[k], closes};
        moves[count++] = one;
    }
    return count;
}

/* The pairs from the lines of feeder_plan, which other checks are about, and the moves: of each pair the closings, then the openings, in list order. How many they are. */
static size_t lay_moves(const char *text, const char *present, const char *wanted, size_t switches, size_t pair_count, const char *what) {
    static char lines[FEEDER_PLAN_LENGTH + 1];
    const char *at = lines;
    size_t count = 0;
    memset(lines, 0, sizeof lines);
    expect_answer(feeder_plan((const uint8_t *)text, strlen(text), (const uint8_t *)present, switches, (const uint8_t *)wanted, switches,
                              (uint8_t *)lines, FEEDER_PLAN_LENGTH),
                  0, 0, pair_count, what);
    for (size_t k = 0; k < pair_count && at != NULL; k++) {
        at = read_pair(at, &pairs[k]);
        if (at != NULL && count + pairs[k].closed.count + pairs[k].opened.count <= FEEDER_MAX_SWITCHES)
            count = lay_moves_of(&pairs[k].opened, 0, lay_moves_of(&pairs[k].closed, 1, count));
    }
    expect(at != NULL && *at == '\0', what);
    return at != NULL ? count : 0;
}

static char *lay_line(char *at, unsigned id, unsigned closes) { return at + sprintf(at, "82%04X%02X\n", id, closes); }

/* Moves one switch, which stands the other way before: 0 where it does not, or is not listed. A state's byte is the opposite of an 82 line's. */
static int move_switch(char *state, size_t switches, unsigned id, unsigned closes) {
    size_t k = 0;
    while (k < switches && listed[k].id != id)
        k++;
    if (k == switches || (unsigned)state[k] != closes)
        return 0;
    state[k] = !closes;
    return 1;
}

/* Carries out one 82 line. */
static int carry_out(const uint8_t *line, char *state, size_t switches) {
    return move_switch(state, switches, digits_at((const char *)line + 2, 4), digits_at((const char *)line + 6, 2));
}

static int carry_out_all(const uint8_t *lines, size_t count, char *state, size_t switches) {
    for (size_t k = 0; k < count; k++)
        if (!carry_out(lines + k * FEEDER_MOVE_LENGTH, state, switches))
            return 0;
    return 1;
}

/* The switches of a line's list, from the first to the last or from the last to the first. */
static int move_all(char *state, size_t switches, const struct ids *ids, unsigned closes, int backward) {
    for (unsigned k = 0; k < ids->count; k++)
        if (!move_switch(state, switches, ids->id[backward ? ids->count - 1 - k : k], closes))
            return 0;
    return 1;
}

/* How a state on the way stands: every bus is connected, and there is one loop or none. All buses connected, there is one with as many live branches as buses. */
static void stands(const char *text, const char *state, size_t switches, int loop, const char *what) {
    size_t count = 0;
    expect_answer(radiality(text, state, switches), 0, 0, !loop, what);
    expect(form(text, state, switches).value / 65536 == 0, what);
    lay_branches(text, state);
    for (size_t k = 0; k < branch_count; k++)
        count += live[k];
    expect(count + 1 == bus_count + loop, what);
    if (bus_count <= FEW)
        is_formed(text, state, switches, what);
}

/* A whole list of moves, from a radial state: a loop from the last of a pair's closings to the first of its openings, at every other count a tree. */
static void is_by_moves(const char *text, const char *from, const uint8_t *lines, size_t count, size_t switches, const char *what) {
    static char state[FEEDER_MAX_SWITCHES];
    memcpy(state, from, switches);
    for (size_t k = 0; k < count; k++) {
        const uint8_t *action = lines + k * FEEDER_MOVE_LENGTH + 7, *next = action + FEEDER_MOVE_LENGTH; /* 1 closes, 0 opens */
        expect(carry_out(lines + k * FEEDER_MOVE_LENGTH, state, switches), what);
        expect(k + 1 < count || *action == '0', what);
        stands(text, state, switches, k + 1 < count && *action == '1' && *next == '0', what);
    }
}

/* The plan by whole lines and back, as the header says: each stopping point is radial, and undoing a line reaches the bytes from before it. */
static void is_by_lines(const char *text, const char *present, size_t pair_count, size_t switches, const char *what) {
    static char points[FEEDER_MAX_BUSES][FEEDER_MAX_SWITCHES], state[FEEDER_MAX_SWITCHES];
    memcpy(state, present, switches);
    for (size_t k = 0; k < pair_count; k++) {
        memcpy(points[k], state, switches);
        expect(move_all(state, switches, &pairs[k].closed, 1, 0) && move_all(state, switches, &pairs[k].opened, 0, 0), what);
        stands(text, state, switches, 0, what);
    }
    for (size_t k = pair_count; k > 0; k--) {
        expect(move_all(state, switches, &pairs[k - 1].opened, 1, 1) && move_all(state, switches, &pairs[k - 1].closed, 0, 1), what);
        expect(memcmp(state, points[k - 1], switches) == 0, what);
    }
}

/* Whether two states have the same live branches. */
static int lives_alike(const char *text, const char *a, const char *b) {
    static uint8_t first[FEEDER_MAX_BRANCHES];
    lay_branches(text, a);
    memcpy(first, live, branch_count);
    lay_branches(text, b);
    return memcmp(first, live, branch_count) == 0;
}

/* A plan cut off at every count, each slice exactly full and one byte short. Finishing from there reaches the wanted live branches, and going back the bytes of the present state. */
static void cut_plan(const char *text, const char *present, const char *wanted, size_t pair_count, const char *what) {
    static char cut[FEEDER_MAX_SWITCHES], state[FEEDER_MAX_SWITCHES];
    static char left[FEEDER_MOVES_LENGTH + 1], undone[FEEDER_MOVES_LENGTH + 1];
    size_t n = lay_switches(text), length = lay_moves(text, present, wanted, n, pair_count, what);
    is_by_lines(text, present, pair_count, n, what);
    memcpy(cut, present, n);
    for (size_t count = 0; count <= length; count++) {
        size_t room = (length - count) * FEEDER_MOVE_LENGTH, back_room = count * FEEDER_MOVE_LENGTH;
        char *at = left;
        *left = *undone = '\0';
        for (size_t k = count; k < length; k++)
            at = lay_line(at, moves[k].id, moves[k].closes);
        at = undone;
        for (size_t k = count; k > 0; k--)
            at = lay_line(at, moves[k - 1].id, !moves[k - 1].closes);
        if (room > 0)
            resume(text, present, n, wanted, n, count, room - 1, FEEDER_MOVES_LENGTH, FEEDER_NO_ROOM, 0, 0, "", "", what);
        if (back_room > 0)
            resume(text, present, n, wanted, n, count, FEEDER_MOVES_LENGTH, back_room - 1, FEEDER_NO_ROOM, 0, 0, "", "", what);
        resume(text, present, n, wanted, n, count, FEEDER_MOVES_LENGTH, FEEDER_MOVES_LENGTH, 0, 0, length - count, left, undone, what);
        resume(text, present, n, wanted, n, count, room, back_room, 0, 0, length - count, left, undone, what);
        memcpy(state, cut, n);
        expect(carry_out_all(remaining.bytes + MARGIN, length - count, state, n) && lives_alike(text, state, wanted), what);
        memcpy(state, cut, n);
        expect(carry_out_all(back.bytes + MARGIN, count, state, n) && memcmp(state, present, n) == 0, what);
        if (count == 0)
            is_by_moves(text, present, remaining.bytes + MARGIN, length, n, what);
        if (count == length)
            is_by_moves(text, cut, back.bytes + MARGIN, length, n, what);
        else
            expect(carry_out(remaining.bytes + MARGIN, cut, n), what);
    }
    resume(text, present, n, wanted, n, length + 1, FEEDER_MOVES_LENGTH, FEEDER_MOVES_LENGTH, FEEDER_TOO_MANY_MOVES, 0, 0, "", "", what);
    for (size_t k = 0; k < TOO_MANY; k++)
        resume(text, present, n, wanted, n, too_many[k], 0, 0, FEEDER_TOO_MANY_MOVES, 0, 0, "", "", what);
}

#define TREE_LINE "840000FFFF\n"
#define PRINTED "810140100000000000003FF00000000000004052C00000000000000201\n" TREE_LINE "82000A00\n82000B01\n8601000B01000A\n"
#define BASE_KEPT "8101401000000000000040100000000000000000000000000000"

/* A text's answer into the middle of guarded bytes. */
static void answer_text(const char *text, size_t room, unsigned number, unsigned place, const char *written, const char *what) {
    lay_slice(written, strlen(written));
    expect_answer(feeder_answer_text((const uint8_t *)text, strlen(text), bytes + MARGIN, room), number, place, strlen(written), what);
    expect(memcmp(bytes, right, sizeof bytes) == 0, what);
}

/* Behind the radial byte, three floats; without a round, not converged. */
#define NOTHING_LOST ZERO ZERO ZERO
#define NO_ROUND "000000\n"
enum { ANSWER_AND_FORM = FEEDER_ANSWER_LENGTH + FEEDER_FORM_LENGTH };

static void texts(void) {
    static const struct branch parallels[] = {{1, 2, 1}, {2, 1, 1}};
    size_t length = strlen(PRINTED);
    answer_text(TRIANGLE, 2 * ROOM, 0, 0, PRINTED, "the triangle's answer, the rest of the slice kept");
    answer_text(TRIANGLE, length, 0, 0, PRINTED, "the triangle's answer, an exactly full slice");
    answer_text(TRIANGLE, length - 1, FEEDER_NO_ROOM, 0, "", "one byte short");
    answer_text(HEAD_OF("010064") RECORDS SWITCHES, FEEDER_TEXT_LENGTH, 0, 0, BASE_KEPT "006401\n" TREE_LINE, "the triangle's answer by tabu");
    answer_text(HEAD_OF("020064") RECORDS SWITCHES, FEEDER_TEXT_LENGTH, 0, 0, BASE_KEPT "000101\n" TREE_LINE, "the triangle's answer by exhaustion");
    answer_text(NO_BUSES, FEEDER_TEXT_LENGTH, 0, 0, "8101" NOTHING_LOST "000101\n" TREE_LINE, "no buses, answered");
    answer_text(NO_TIES, FEEDER_TEXT_LENGTH, 0, 0, "81004016C000000000004016C000000000000000000000000000000101\n8400000002\n", "a loop without a tie, answered");
    answer_text(feeder_of(3, NULL, 0), FEEDER_TEXT_LENGTH, 0, 0, "8100" NOTHING_LOST NO_ROUND "840002FFFF\n", "three buses without a branch, answered");
    answer_text(feeder_of(3, parallels, 2), ANSWER_AND_FORM, 0, 0, "8100" NOTHING_LOST NO_ROUND "8400010001\n", "parallels and an island, an exactly full slice");
    answer_text(feeder_of(3, parallels, 2), ANSWER_AND_FORM - 1, FEEDER_NO_ROOM, 0, "", "parallels and an island, one byte short");
    answer_text(feeder_of(3, parallels, 2), FEEDER_ANSWER_LENGTH, FEEDER_NO_ROOM, 0, "", "parallels and an island, room for the 81 line alone");
    answer_text("", ROOM, FEEDER_BAD_LINE, 1, "", "an empty text");
    answer_text("0G", FEEDER_TEXT_LENGTH, FEEDER_BAD_CHARACTERS, 1, "", "another character, with room for any answer");
    answer_text("0G", 0, FEEDER_BAD_CHARACTERS, 1, "", "another character, before the room");
    answer_text(TRIANGLE "04", ROOM, FEEDER_BAD_CHARACTERS, 10, "", "an unended line too many");
}

/* The switches on a branch that are open in a state, behind their number, in list order. */
static char *lay_open(char *at, const char *state, size_t switches, unsigned branch) {
    unsigned count = 0;
    for (size_t i = 0; i < switches; i++)
        count += listed[i].branch == branch && state[i] == 1;
    at += sprintf(at, "%02X", count);
    for (size_t i = 0; i < switches; i++)
        if (listed[i].branch == branch && state[i] == 1)
            at += sprintf(at, "%04X", listed[i].id);
    return at;
}

/* On the path between the ends of a branch that isn't live, in a tree of live ones: the first that is not wanted, from its from bus. The path is followed back from the to bus. */
static unsigned first_unwanted(unsigned branch, const uint8_t *goal) {
    static unsigned came_by[FEEDER_MAX_BUSES];
    unsigned at = ends[branch][1], found = FEEDER_MAX_BRANCHES;
    int more = 1;
    memset(reached, 0, sizeof reached);
    reached[ends[branch][0]] = 1;
    while (more) {
        more = 0;
        for (unsigned k = 0; k < branch_count; k++)
            if (live[k] && reached[ends[k][0]] != reached[ends[k][1]]) {
                came_by[ends[k][reached[ends[k][0]] ? 1 : 0]] = k;
                reached[ends[k][0]] = reached[ends[k][1]] = more = 1;
            }
    }
    while (at != ends[branch][0]) {
        unsigned k = came_by[at];
        if (!goal[k])
            found = k;
        at = ends[k][ends[k][0] == at ? 1 : 0];
    }
    return found;
}

static int is_first_on_branch(size_t i) {
    size_t first = 0;
    while (listed[first].branch != listed[i].branch)
        first++;
    return first == i;
}

static struct feeder_answer refusal(unsigned number, unsigned place) {
    struct feeder_answer answer = {(uint8_t)number, (uint16_t)place, 0};
    return answer;
}

/* What feeder_plan answers for two states of an accepted text, with room, and its lines. A branch ranks by its first listed switch, moved or not. */
static struct feeder_answer reckoned_plan(const char *text, const char *present, const char *wanted, char *lines) {
    static uint8_t before[FEEDER_MAX_BRANCHES], goal[FEEDER_MAX_BRANCHES];
    struct feeder_answer answer = refusal(0, 0);
    size_t switches = lay_switches(text);
    *lines = '\0';
    if (reckoned_form(text, present) != FEEDER_TREE)
        return refusal(FEEDER_NOT_RADIAL, 0);
    if (reckoned_form(text, wanted) != FEEDER_TREE)
        return refusal(FEEDER_NOT_RADIAL, 1);
    lay_branches(text, wanted);
    memcpy(goal, live, sizeof goal);
    lay_branches(text, present);
    memcpy(before, live, sizeof before);
    for (size_t i = 0; i < switches; i++)
        if (!listed[i].operable && present[i] != wanted[i] && before[listed[i].branch] != goal[listed[i].branch])
            return refusal(FEEDER_LOCKED, listed[i].id);
    for (size_t i = 0; i < switches; i++) {
        unsigned k = listed[i].branch, opened;
        if (!is_first_on_branch(i) || before[k] || !goal[k])
            continue;
        opened = first_unwanted(k, goal);
        live[k] = 1;
        live[opened] = 0;
        lines = lay_open(lines + sprintf(lines, "86"), present, switches, k);
        lines = lay_open(lines, wanted, switches, opened);
        lines += sprintf(lines, "\n");
        answer.value++;
    }
    return answer;
}

/* How many pairs were met that move so many switches, and how many refusals. */
static unsigned met_pairs[2 * FEEDER_MAX_SWITCHES_ON_BRANCH + 1], met_refusals[FEEDER_TOO_MANY_MOVES + 1];

/* The plan that is reckoned, in slices that are exactly full, longer and one byte short, and cut off at every count; or its refusal, before the count and the room. */
static void is_planned(const char *text, const char *present, const char *wanted, const char *what) {
    static char lines[FEEDER_PLAN_LENGTH + 1];
    struct feeder_answer right = reckoned_plan(text, present, wanted, lines);
    size_t n = lay_switches(text), length = strlen(lines);
    met_refusals[right.number]++;
    if (right.number != 0) {
        plan(text, present, n, wanted, n, 0, right.number, right.place, 0, "", what);
        plan(text, present, n, wanted, n, FEEDER_PLAN_LENGTH, right.number, right.place, 0, "", what);
        resume(text, present, n, wanted, n, UINT64_MAX, 0, 0, right.number, right.place, 0, "", "", what);
        return;
    }
    plan(text, present, n, wanted, n, length, 0, 0, right.value, lines, what);
    plan(text, present, n, wanted, n, length + 1, 0, 0, right.value, lines, what);
    plan(text, present, n, wanted, n, FEEDER_PLAN_LENGTH, 0, 0, right.value, lines, what);
    if (length > 0)
        plan(text, present, n, wanted, n, length - 1, FEEDER_NO_ROOM, 0, 0, "", what);
    cut_plan(text, present, wanted, right.value, what);
    for (size_t k = 0; k < right.value; k++)
        met_pairs[pairs[k].closed.count + pairs[k].opened.count]++;
}

/* The same where the lines are known by hand. */
static void has_plan(const char *text, const char *present, const char *wanted, const char *written, const char *what) {
    size_t n = lay_switches(text), count = 0;
    for (const char *at = written; *at != '\0'; at++)
        count += *at == '\n';
    plan(text, present, n, wanted, n, strlen(written), 0, 0, count, written, what);
    is_planned(text, present, wanted, what);
}

static void has_no_plan(const char *text, const char *present, const char *wanted, unsigned number, unsigned place, const char *what) {
    size_t n = lay_switches(text);
    plan(text, present, n, wanted, n, FEEDER_PLAN_LENGTH, number, place, 0, "", what);
    is_planned(text, present, wanted, what);
}

/* Buses 1, 2 and 3 in a row, the branches between them double: 0 and 1 from 1 to 2, 2 and 3 from 2 to 3. */
#define DOUBLE_ROW "01000300040005" ONE "000064\n" BUS_LINES "03000100023FD000000000000001\n03000100023FD000000000000001\n03000200033FD000000000000001\n03000200033FD000000000000001\n"
/* The triangle, and branch 3 beside its branch 1, with two switches. */
#define BRANCH_BESIDE "01000300040004" ONE "000064\n" RECORDS "03000200033FDC00000000000001\n"

/* A switch at each end: document 02's example, and what decides between the switches of a branch. */
static void both_ends(void) {
    has_plan(BOTH_ENDS, "\1\0\1\0", "\0\1\0\0", "8602000C000B01000A\n", "both ends closed, one opened");
    resume(BOTH_ENDS, "\1\0\1\0", 4, "\0\1\0\0", 4, 0, 27, 0, 0, 0, 3, "82000C01\n82000B01\n82000A00\n", "", "both ends, no move done");
    resume(BOTH_ENDS, "\1\0\1\0", 4, "\0\1\0\0", 4, 1, 18, 9, 0, 0, 2, "82000B01\n82000A00\n", "82000C00\n", "both ends, one closed");
    resume(BOTH_ENDS, "\1\0\1\0", 4, "\0\1\0\0", 4, 2, 9, 18, 0, 0, 1, "82000A00\n", "82000B00\n82000C00\n", "both ends, both closed");
    resume(BOTH_ENDS, "\1\0\1\0", 4, "\0\1\0\0", 4, 3, 0, 27, 0, 0, 0, "", "82000A01\n82000B00\n82000C00\n", "both ends, all moves done");
    resume(BOTH_ENDS, "\1\0\1\0", 4, "\0\1\0\0", 4, 4, ROOM, ROOM, FEEDER_TOO_MANY_MOVES, 0, 0, "", "", "both ends, a move too many");
    has_form(BOTH_ENDS, "\1\0\1\0", 4, 0, NO_BRANCH, "both ends, as it began");
    has_form(BOTH_ENDS, "\0\0\1\0", 4, 0, NO_BRANCH, "both ends, one closed: a tree");
    has_form(BOTH_ENDS, "\0\0\0\0", 4, 0, 2, "both ends, both closed: the loop of three branches");
    has_form(BOTH_ENDS, "\0\1\0\0", 4, 0, NO_BRANCH, "both ends, as wanted");
    has_form(BOTH_ENDS, "\0\0\0\1", 4, 0, NO_BRANCH, "one open switch of two is enough");
    has_plan(BOTH_ENDS, "\0\1\0\0", "\1\0\1\0", "8601000A02000C000B\n", "the other way: one closed, both ends opened");
    has_plan(BOTH_ENDS, "\0\0\1\0", "\0\1\0\0", "8601000B01000A\n", "of two switches the closed one stays");
    has_plan(BOTH_ENDS, "\0\0\1\0", "\1\0\1\0", "", "a switch that moves on a branch that stays dead");
    has_no_plan(BOTH_ENDS, "\1\0\1\0", "\0\1\0\1", FEEDER_LOCKED, 13, "the locked switch of two would move");
    has_no_plan(BOTH_ENDS, "\0\0\0\0", "\0\1\0\0", FEEDER_NOT_RADIAL, 0, "both ends, the present state is a loop");
    resume(BOTH_ENDS, "\1\0\1\0", 4, "\0\1\0\1", 4, UINT64_MAX, 0, 0, FEEDER_LOCKED, 13, 0, "", "", "the locked switch of two, before the count and the room");
    has_plan(HEAD_FOR("0004", "000064") RECORDS "04000C000203\n04000A000102\n04000B000203\n04000D000102\n", "\1\0\1\0", "\0\1\0\1", "8602000C000B02000A000D\n", "four moves, the longest line");

    has_no_plan(HEAD_FOR("0004", "000064") RECORDS "04000D000100\n04000C000201\n04000A000100\n04000B000203\n", "\0\1\0\1", "\0\0\1\0", FEEDER_LOCKED, 12, "a locked switch that stays, then two that move");
    has_no_plan(HEAD_FOR("0004", "000064") RECORDS "04000A000100\n04000C000201\n04000D000102\n04000B000203\n", "\0\1\0\1", "\1\0\0\0", FEEDER_LOCKED, 10, "the first locked one in list order, which the plan opens last");
    has_plan(BRANCH_BESIDE "04000A000102\n04000C000300\n04000B000202\n04000D000300\n", "\0\1\1\0", "\1\0\0\1", "8601000B01000A\n", "locked switches that move on a branch that stays dead");

    has_plan(DOUBLE_ROW "040001000102\n040002000303\n040003000103\n040004000002\n040005000202\n", "\0\1\1\0\0", "\0\0\0\1\1", "8601000301" "0004\n8601000201" "0005\n",
             "a branch ranks by its first listed switch, which stays");
    has_plan(DOUBLE_ROW "040009000103\n040002000303\n040003000103\n040004000202\n040005000002\n", "\1\1\1\0\0", "\0\0\0\1\1", "860200090003010005\n8601000201" "0004\n",
             "a branch with two switches that move is closed once");
    answer_text(BOTH_ENDS, ANSWER_AND_FORM, 0, 0, BASE_KEPT "000101\n" TREE_LINE, "both ends by exchange: the base, one round, converged");
    answer_text(HEAD_FOR("0004", "010064") RECORDS FOUR_SWITCHES, ANSWER_AND_FORM, 0, 0, BASE_KEPT "006401\n" TREE_LINE, "both ends by tabu: the base, 100 rounds");
    answer_text(HEAD_FOR("0004", "020064") RECORDS FOUR_SWITCHES, ANSWER_AND_FORM, 0, 0, BASE_KEPT "000301\n" TREE_LINE, "both ends by exhaustion: the base, three radial states");
}

/* A drawn feeder: a tree over a few buses and branches more between any two different ones, some out of service, at any positions. On a branch are none, one or two switches, in some
 * feeders two on each, listed in any order, ties and sections, in every second feeder some of them locked. A branch beside the tree that has no switch is out of service, but for a few. */
enum { DRAWN = 600, DRAWN_BRANCHES = 2 * FEW, DRAWN_SWITCHES = 2 * DRAWN_BRANCHES };
static char drawn_text[37 + FEW * 23 + DRAWN_BRANCHES * 29 + DRAWN_SWITCHES * 13 + 1];

static void shuffle(unsigned *numbers, unsigned count) {
    for (unsigned k = count; k > 1; k--) {
        unsigned other = draw(k), kept = numbers[k - 1];
        numbers[k - 1] = numbers[other];
        numbers[other] = kept;
    }
}

static void draw_feeder(unsigned method) {
    struct branch branches[DRAWN_BRANCHES];
    unsigned buses = 1 + draw(FEW), count = buses - 1 + (buses > 1 ? draw(FEW) : 0), order[DRAWN_BRANCHES], on[DRAWN_SWITCHES], switches = 0, ties = 0, locks = draw(2), all_two = draw(3) == 0;
    char *at = drawn_text;
    for (unsigned k = 0; k < count; k++)
        order[k] = k;
    shuffle(order, count);
    for (unsigned k = 0; k < count; k++) {
        unsigned is_of_tree = k + 1 < buses, there = all_two ? 2 : is_of_tree ? draw(3) : 1 + draw(2), dead = draw(8) == 0;
        struct branch one = {draw(is_of_tree ? k + 1 : buses), k + 1, !(dead && !is_of_tree)};
        if (!is_of_tree)
            one.to = (one.from + 1 + draw(buses - 1)) % buses;
        if (!is_of_tree && draw(16) == 0)
            there = one.status = draw(8) == 0;
        if (draw(2) == 0) {
            unsigned from = one.from;
            one.from = one.to;
            one.to = from;
        }
        branches[order[k]] = one;
        for (; there > 0; there--)
            on[switches++] = order[k];
    }
    shuffle(on, switches);
    at += sprintf(at, "01%04X%04X%04X" ONE "%02X0008\n", buses, count, switches, method);
    for (unsigned bus = 0; bus < buses; bus++)
        at += sprintf(at, "02%04X" ONE "\n", 999 - bus);
    for (unsigned k = 0; k < count; k++)
        at += sprintf(at, "03%04X%04X%s%02X\n", 999 - branches[k].from, 999 - branches[k].to, draw(2) == 0 ? ONE : "3FC0000000000000", branches[k].status);
    for (unsigned i = 0; i < switches; i++) {
        unsigned tie = draw(2) && ties < FEEDER_MAX_TIES, locked = locks && draw(8) == 0;
        ties += tie;
        at += sprintf(at, "04%04X%04X%02X\n", (i * 40503 + 77) % 65536, on[i], (locked ? 0 : 2) + tie);
    }
}

/* A drawn state of it: the branches without a switch are live, of the others those that join two pieces; on a dead one one switch is open or both. So it is radial, where a state of
 * the feeder is; but a few have a byte otherwise. */
static void draw_state(char *state) {
    unsigned order[DRAWN_BRANCHES], piece[FEW];
    size_t switches = lay_switches(drawn_text);
    memset(state, 0, switches);
    lay_branches(drawn_text, state);
    for (unsigned bus = 0; bus < bus_count; bus++)
        piece[bus] = bus;
    for (unsigned k = 0; k < branch_count; k++)
        order[k] = k;
    shuffle(order, (unsigned)branch_count);
    for (size_t i = 0; i < switches; i++)
        state[i] = draw(3) > 0;
    for (unsigned k = 0; k < 2 * branch_count; k++) {
        unsigned branch = order[k % branch_count], from = piece[ends[branch][0]], to = piece[ends[branch][1]], there = 0, open = 0;
        for (size_t i = 0; i < switches; i++)
            if (listed[i].branch == branch) {
                there++;
                open += state[i] == 1;
                if (from != to && k >= branch_count && live[branch])
                    state[i] = 0;
            }
        if (!live[branch] || (there == 0) != (k < branch_count))
            continue;
        for (size_t i = 0; from == to && open == 0 && i < switches; i++)
            if (listed[i].branch == branch)
                open = state[i] = 1;
        for (unsigned bus = 0; bus < bus_count; bus++)
            piece[bus] = piece[bus] == from ? to : piece[bus];
    }
    if (switches > 0 && draw(12) == 0)
        state[draw((unsigned)switches)] ^= 1;
}

/* What is printed for the text: the search's line and its best state's form, what feeder_operations lists, and the plan that is reckoned from a radial base. */
static void is_printed(const char *text, const char *what) {
    static char base[DRAWN_SWITCHES], best[DRAWN_SWITCHES], printed[FEEDER_TEXT_LENGTH + 1], lines[FEEDER_PLAN_LENGTH + 1];
    size_t n = lay_switches(text);
    uint64_t formed;
    char *at = printed;
    struct feeder_solved solved = feeder_solve((const uint8_t *)text, strlen(text), (uint8_t *)best, sizeof best);
    expect_answer(feeder_base_state((const uint8_t *)text, strlen(text), (uint8_t *)base, sizeof base), 0, 0, n, what);
    formed = reckoned_form(text, best);
    expect(solved.number == 0 && solved.radial == (formed == FEEDER_TREE), what);
    at += sprintf(at, "81%02X%016llX%016llX%016llX%04X%02X\n84%08llX\n", solved.radial, (unsigned long long)bits(solved.base_loss), (unsigned long long)bits(solved.best_loss),
                  (unsigned long long)bits(solved.reduction), solved.iterations, solved.converged, (unsigned long long)formed);
    at += FEEDER_OPERATION_LENGTH * feeder_operations((const uint8_t *)text, strlen(text), (const uint8_t *)base, n, (const uint8_t *)best, n, (uint8_t *)at, FEEDER_OPERATIONS_LENGTH).value;
    *at = '\0';
    if (reckoned_form(text, base) == FEEDER_TREE) {
        expect(reckoned_plan(text, base, best, lines).number == 0, what);
        sprintf(at, "%s", lines);
    }
    answer_text(text, strlen(printed), 0, 0, printed, what);
    answer_text(text, strlen(printed) - 1, FEEDER_NO_ROOM, 0, "", what);
}

static void drawn_plans(void) {
    static char first[DRAWN_SWITCHES], second[DRAWN_SWITCHES];
    for (unsigned number = 0; number < DRAWN; number++) {
        draw_feeder(number % 3);
        draw_state(first);
        draw_state(second);
        is_planned(drawn_text, first, second, "a drawn plan");
        is_planned(drawn_text, second, first, "a drawn plan, the other way");
        is_formed(drawn_text, first, lay_switches(drawn_text), "a drawn state");
        is_printed(drawn_text, "a drawn feeder");
    }
    for (unsigned count = 2; count <= 2 * FEEDER_MAX_SWITCHES_ON_BRANCH; count++)
        expect(met_pairs[count] > 50, "pairs of two, three and four moves are met");
    expect(met_refusals[0] > 400 && met_refusals[FEEDER_NOT_RADIAL] > 50 && met_refusals[FEEDER_LOCKED] > 50, "plans and their refusals are met");
}

/* A base into the middle of guarded bytes. */
static void base_state(const char *text, size_t room, unsigned number, unsigned place, const char *state, size_t length, const char *what) {
    lay_slice(state, length);
    expect_answer(feeder_base_state((const uint8_t *)text, strlen(text), bytes + MARGIN, room), number, place, length, what);
    expect(memcmp(bytes, right, sizeof bytes) == 0, what);
}

static void bases(void) {
    base_state(TRIANGLE, ROOM, 0, 0, "\0\1", 2, "the triangle's base, the rest of the slice kept");
    base_state(TRIANGLE, 2, 0, 0, "\0\1", 2, "the triangle's base, an exactly full slice");
    base_state(TRIANGLE, 1, FEEDER_NO_ROOM, 0, "", 0, "a base, one byte short");
    base_state(NO_TIES, ROOM, 0, 0, "\0\0", 2, "a base without ties");
    base_state(NO_BUSES, 0, 0, 0, "", 0, "the base of no switches, no room needed");
    base_state("", 0, FEEDER_BAD_LINE, 1, "", 0, "a base, an empty text, before the room");
    base_state(HEAD RECORDS "04000A000302\n", ROOM, FEEDER_NOT_LISTED, 8, "", 0, "a base, a switch on no branch");
    base_state(HEAD RECORDS "04000A000102\n04000B000103\n", ROOM, 0, 0, "\0\1", 2, "a base, two switches on a branch");
    base_state(BOTH_ENDS, 4, 0, 0, "\1\0\1\0", 4, "a base, two switches on two branches");
    base_state(THREE_ON_A_BRANCH, ROOM, FEEDER_THIRD_SWITCH, 10, "", 0, "a base, a third switch on a branch");
}

static void expect_solved(struct feeder_solved a, struct feeder_solved b, const char *what) {
    expect(a.number == b.number && a.place == b.place && a.radial == b.radial && a.converged == b.converged
               && a.iterations == b.iterations && bits(a.base_loss) == bits(b.base_loss) && bits(a.best_loss) == bits(b.best_loss)
               && bits(a.reduction) == bits(b.reduction),
           what);
}

static struct feeder_solved not_solved(unsigned number, unsigned place) {
    struct feeder_solved refused = {0, 0, 0, 0, 0, 0.0, 0.0, 0.0};
    refused.number = (uint8_t)number;
    refused.place = (uint16_t)place;
    return refused;
}

/* A best state into the middle of guarded bytes. */
static void solve(const char *text, size_t room, struct feeder_solved answer, const char *state, size_t length, const char *what) {
    lay_slice(state, length);
    expect_solved(feeder_solve((const uint8_t *)text, strlen(text), bytes + MARGIN, room), answer, what);
    expect(memcmp(bytes, right, sizeof bytes) == 0, what);
}

static void searches(void) {
    struct feeder_solved exchanged = {0, 0, 1, 1, 2, 4.0, 1.0, 75.0};
    struct feeder_solved no_round = {0, 0, 1, 0, 0, 4.0, 4.0, 0.0};
    struct feeder_solved one_round = {0, 0, 1, 0, 1, 4.0, 1.0, 75.0};
    struct feeder_solved moved = {0, 0, 1, 1, 100, 4.0, 4.0, 0.0};
    struct feeder_solved tried = {0, 0, 1, 1, 1, 4.0, 4.0, 0.0};
    struct feeder_solved a_loop = {0, 0, 0, 1, 1, 5.6875, 5.6875, 0.0};
    solve(TRIANGLE, ROOM, exchanged, "\1\0", 2, "the triangle by exchange, the rest of the slice kept");
    solve(TRIANGLE, 2, exchanged, "\1\0", 2, "the triangle by exchange, an exactly full slice");
    solve(TRIANGLE, 1, not_solved(FEEDER_NO_ROOM, 0), "", 0, "a search, one byte short");
    solve(HEAD_OF("000000") RECORDS SWITCHES, 2, no_round, "\0\1", 2, "the triangle by exchange, no round");
    solve(HEAD_OF("000001") RECORDS SWITCHES, 2, one_round, "\1\0", 2, "the triangle by exchange, one round");
    solve(HEAD_OF("010064") RECORDS SWITCHES, ROOM, moved, "\0\1", 2, "the triangle by tabu");
    solve(HEAD_OF("020064") RECORDS SWITCHES, ROOM, tried, "\0\1", 2, "the triangle by exhaustion");
    solve(NO_TIES, ROOM, a_loop, "\0\0", 2, "a loop without a tie");
    solve("0G", 0, not_solved(FEEDER_BAD_CHARACTERS, 1), "", 0, "a search, another character, before the room");
    solve(HEAD_OF("0003E9") RECORDS SWITCHES, ROOM, not_solved(FEEDER_NO_MEANING, 1), "", 0, "a search, 1,001 iterations");
    solve(HEAD RECORDS "04000A000102\n04000A000203\n", ROOM, not_solved(FEEDER_ID_TWICE, 9), "", 0, "a search, a switch id twice");
}

/* A list of operations into the middle of guarded bytes. */
static void operations(const char *text, const char *from, size_t from_length, const char *to, size_t to_length, size_t room,
                       unsigned number, unsigned place, uint64_t value, const char *written, const char *what) {
    lay_slice(written, strlen(written));
    expect_answer(feeder_operations((const uint8_t *)text, strlen(text), (const uint8_t *)from, from_length, (const uint8_t *)to, to_length,
                                    bytes + MARGIN, room),
                  number, place, value, what);
    expect(memcmp(bytes, right, sizeof bytes) == 0, what);
}

#define BOTH_MOVE "82000A00\n82000B01\n"

static void operation_lists(void) {
    operations(TRIANGLE, "\0\1", 2, "\1\0", 2, ROOM, 0, 0, 2, BOTH_MOVE, "both switches, the rest of the slice kept");
    operations(TRIANGLE, "\0\1", 2, "\1\0", 2, 18, 0, 0, 2, BOTH_MOVE, "both switches, an exactly full slice");
    operations(TRIANGLE, "\0\1", 2, "\1\0", 2, 17, FEEDER_NO_ROOM, 0, 0, "", "two operations, one byte short");
    operations(TRIANGLE, "\1\0", 2, "\0\1", 2, ROOM, 0, 0, 2, "82000A01\n82000B00\n", "both switches, the way back");
    operations(TRIANGLE, "\0\0", 2, "\0\1", 2, 9, 0, 0, 1, "82000B00\n", "one switch, from a state that is not radial");
    operations(LOCKED, "\0\1", 2, "\1\1", 2, 9, 0, 0, 1, "82000A00\n", "a locked switch");
    operations(TRIANGLE, "\1\1", 2, "\1\1", 2, 0, 0, 0, 0, "", "no operation, no room needed");
    operations(TRIANGLE, "\0\2", 2, "\1", 1, 0, FEEDER_BAD_STATE, 0, 0, "", "a faulty first state before a short second one");
    operations(TRIANGLE, "\0\1", 2, "\1", 1, 0, FEEDER_BAD_STATE, 1, 0, "", "a short second state before the room");
    operations(TRIANGLE, "\0\1\0", 3, "\1\0", 2, ROOM, FEEDER_BAD_STATE, 0, 0, "", "a first state one byte long");
    operations("", "\2", 1, "\2", 1, 0, FEEDER_BAD_LINE, 1, 0, "", "an empty text before the states");
}

/* Each slice may be null with length 0. */
static void nulls(void) {
    const uint8_t *text = (const uint8_t *)NO_BUSES;
    const uint8_t *triangle = (const uint8_t *)TRIANGLE;
    const uint8_t *base = (const uint8_t *)"\0\1", *best = (const uint8_t *)"\1\0";
    size_t length = strlen(NO_BUSES);
    struct feeder_solved nothing = {0, 0, 1, 1, 1, 0.0, 0.0, 0.0};
    expect_answer(feeder_radiality(NULL, 0, NULL, 0), 2, 1, 0, "radiality, a null text");
    expect_answer(feeder_form(NULL, 0, NULL, 0), 2, 1, 0, "form, a null text");
    expect_answer(feeder_loss(NULL, 0, NULL, 0), 2, 1, 0, "loss, a null text");
    expect_answer(feeder_plan(NULL, 0, NULL, 0, NULL, 0, NULL, 0), 2, 1, 0, "plan, a null text");
    expect_answer(feeder_resume(NULL, 0, NULL, 0, NULL, 0, 0, NULL, 0, NULL, 0), 2, 1, 0, "resuming, a null text");
    expect_answer(feeder_answer_text(NULL, 0, NULL, 0), 2, 1, 0, "answer, a null text");
    expect_answer(feeder_base_state(NULL, 0, NULL, 0), 2, 1, 0, "base, a null text");
    expect_solved(feeder_solve(NULL, 0, NULL, 0), not_solved(2, 1), "search, a null text");
    expect_answer(feeder_operations(NULL, 0, NULL, 0, NULL, 0, NULL, 0), 2, 1, 0, "operations, a null text");
    expect_answer(feeder_write_text(NULL, 0, NULL, 0), 2, 1, 0, "writing, null records");
    expect_answer(feeder_repair_text(NULL, 0, NULL, 0), 2, 1, 0, "repairing, a null text");
    expect_answer(feeder_repair_text(text, length, NULL, 0), 13, 0, 0, "repairing, a null slice");
    expect_answer(feeder_radiality(text, length, NULL, 0), 0, 0, 1, "radiality, a null state");
    expect_answer(feeder_form(text, length, NULL, 0), 0, 0, FEEDER_TREE, "form, a null state");
    expect_answer(feeder_form(triangle, strlen(TRIANGLE), NULL, 0), 10, 0, 0, "form, a null state for two switches");
    expect_answer(feeder_loss(text, length, NULL, 0), 0, 0, 0, "loss, a null state");
    expect_answer(feeder_plan(text, length, NULL, 0, NULL, 0, NULL, 0), 0, 0, 0, "plan, null states and a null slice");
    expect_answer(feeder_plan(triangle, strlen(TRIANGLE), NULL, 0, NULL, 0, NULL, 0), 10, 0, 0, "plan, a null state for two switches");
    expect_answer(feeder_resume(text, length, NULL, 0, NULL, 0, 0, NULL, 0, NULL, 0), 0, 0, 0, "resuming, null states and null slices");
    expect_answer(feeder_resume(text, length, NULL, 0, NULL, 0, 1, NULL, 0, NULL, 0), 16, 0, 0, "resuming, null states and a move done");
    expect_answer(feeder_resume(triangle, strlen(TRIANGLE), NULL, 0, NULL, 0, 0, NULL, 0, NULL, 0), 10, 0, 0, "resuming, a null state for two switches");
    expect_answer(feeder_resume(triangle, strlen(TRIANGLE), base, 2, best, 2, 0, bytes, 18, NULL, 0), 0, 0, 2, "resuming, a null slice for no move done");
    expect_answer(feeder_resume(triangle, strlen(TRIANGLE), base, 2, best, 2, 2, NULL, 0, bytes, 18), 0, 0, 0, "resuming, a null slice for no move left");
    expect_answer(feeder_resume(triangle, strlen(TRIANGLE), base, 2, best, 2, 1, NULL, 0, bytes, 18), 13, 0, 0, "resuming, a null slice for the move left");
    expect_answer(feeder_resume(triangle, strlen(TRIANGLE), base, 2, best, 2, 1, bytes, 18, NULL, 0), 13, 0, 0, "resuming, a null slice for the move done");
    expect_answer(feeder_answer_text(text, length, NULL, 0), 13, 0, 0, "answer, a null slice");
    expect_answer(feeder_base_state(text, length, NULL, 0), 0, 0, 0, "base of no switches, a null slice");
    expect_answer(feeder_base_state(triangle, strlen(TRIANGLE), NULL, 0), 13, 0, 0, "base, a null slice for two switches");
    expect_solved(feeder_solve(text, length, NULL, 0), nothing, "search of no switches, a null slice");
    expect_solved(feeder_solve(triangle, strlen(TRIANGLE), NULL, 0), not_solved(13, 0), "search, a null slice for two switches");
    expect_answer(feeder_operations(text, length, NULL, 0, NULL, 0, NULL, 0), 0, 0, 0, "operations, null states and a null slice");
}

/* Records in bytes, more than any text has. */
enum { MANY = 100000 };
static uint8_t records[MANY];

/* A byte for two digits, without the line feeds: how many. */
static size_t lay_records(const char *text) {
    size_t length = 0;
    for (; *text != '\0'; text++)
        if (*text != '\n') {
            unsigned byte;
            sscanf(text++, "%2x", &byte);
            records[length++] = (uint8_t)byte;
        }
    return length;
}

/* The text of so many of the records into the middle of guarded bytes. */
static void write_records(size_t length, size_t room, unsigned number, unsigned place, const char *written, const char *what) {
    lay_slice(written, strlen(written));
    expect_answer(feeder_write_text(records, length, bytes + MARGIN, room), number, place, strlen(written), what);
    expect(memcmp(bytes, right, sizeof bytes) == 0, what);
}

/* A text out of its own records: accepted, it comes back; else its refusal, with room for every text and with none. */
static void comes_back(const char *text, const char *what) {
    write_records(lay_records(text), FEEDER_FRAMES_LENGTH, 0, 0, text, what);
}

static void is_refused(const char *text, unsigned number, unsigned place, const char *what) {
    size_t length = lay_records(text);
    write_records(length, FEEDER_FRAMES_LENGTH, number, place, "", what);
    write_records(length, 0, number, place, "", what);
}

static void written_texts(void) {
    size_t length = lay_records(TRIANGLE), text_length = strlen(TRIANGLE);
    struct feeder_answer answer = feeder_write_text(records, length, bytes, sizeof bytes);
    expect(length == FEEDER_HEAD_BYTES + 3 * FEEDER_BUS_BYTES + 3 * FEEDER_BRANCH_BYTES + 2 * FEEDER_SWITCH_BYTES, "the triangle's records");
    expect_answer(answer, 0, 0, text_length, "the triangle's text");
    expect(memcmp(bytes, TRIANGLE, text_length) == 0, "the triangle's text");
    expect_answer(feeder_answer_text(bytes, answer.value, right, sizeof right), 0, 0, strlen(PRINTED), "the triangle's text, answered");
    expect(memcmp(right, PRINTED, strlen(PRINTED)) == 0, "the triangle's text, answered");
    write_records(length, FEEDER_FRAMES_LENGTH, 0, 0, TRIANGLE, "the triangle's text, the rest of the slice kept");
    write_records(length, text_length, 0, 0, TRIANGLE, "the triangle's text, an exactly full slice");
    write_records(length, text_length - 1, FEEDER_NO_ROOM, 0, "", "the triangle's text, one byte short");
    write_records(length, 0, FEEDER_NO_ROOM, 0, "", "the triangle's text, no room");
    expect_answer(feeder_write_text(records, length, NULL, 0), FEEDER_NO_ROOM, 0, 0, "the triangle's text, a null slice");
    comes_back(NO_BUSES, "no buses");
    comes_back("01000200000000" ONE "0203E8\n0200008000000000000000\n02FFFF0000000000000001\n", "ids 0 and FFFF, -0.0, a subnormal");
}

#define HEAD_WITH(counts, base) "01" counts base "000064\n"
#define OWN_LOOP "03000100013FD000000000000001\n"

/* Branches beside each other, and eleven ties, tie k on branch k modulo the branches. */
static const char *eleven_ties(unsigned method, unsigned branches) {
    static char text[1024];
    char *at = text + sprintf(text, "010002%04X000B" ONE "%02X0000\n" BUS_1 BUS_2, branches, method);
    for (unsigned k = 0; k < branches; k++)
        at += sprintf(at, "03000100023FD000000000000001\n");
    for (unsigned k = 0; k < 11; k++)
        at += sprintf(at, "04%04X%04X03\n", k, k % branches);
    return text;
}

/* Each refusal, with the line on which the record stands. */
static void refused_records(void) {
    is_refused("", FEEDER_BAD_LINE, 1, "no record");
    is_refused(RECORDS SWITCHES, FEEDER_BAD_LINE, 1, "no head");
    is_refused(HEAD TRIANGLE, FEEDER_BAD_LINE, 2, "a second head");
    is_refused(HEAD BRANCH_LINES BUS_LINES SWITCHES, FEEDER_BAD_LINE, 2, "branches before buses");
    is_refused(HEAD RECORDS "04000A000102\n", FEEDER_BAD_LINE, 9, "a switch too few");
    is_refused(TRIANGLE "04000C000002\n", FEEDER_BAD_LINE, 10, "a switch too many");
    is_refused(TRIANGLE "06000A\n", FEEDER_BAD_LINE, 10, "another record too many");
    is_refused(HEAD_OF("030064") RECORDS SWITCHES, FEEDER_NO_MEANING, 1, "method 03");
    is_refused(HEAD_OF("0003E9") RECORDS SWITCHES, FEEDER_NO_MEANING, 1, "1,001 iterations");
    is_refused(HEAD BUS_LINES "03000100023FD000000000000002\n", FEEDER_NO_MEANING, 5, "status 02");
    is_refused(HEAD RECORDS "04000A000104\n", FEEDER_NO_MEANING, 8, "flags 04");
    is_refused(HEAD_WITH("010100000000", ONE), FEEDER_OVER_LIMIT, 1, "257 buses");
    is_refused(HEAD_WITH("000002010000", ONE), FEEDER_OVER_LIMIT, 1, "513 branches");
    is_refused(HEAD_WITH("000000000201", ONE), FEEDER_OVER_LIMIT, 1, "513 switches");
    is_refused(HEAD_WITH("000000000000", ZERO), FEEDER_OUT_OF_RANGE, 1, "base 0");
    is_refused(HEAD BUS_1 "0200027FF8000000000000\n", FEEDER_OUT_OF_RANGE, 3, "a load that is no number");
    is_refused(HEAD BUS_1 "020002412E848000000001\n", FEEDER_OUT_OF_RANGE, 3, "a load over a million");
    is_refused(HEAD BUS_LINES "0300010002BFD000000000000001\n", FEEDER_OUT_OF_RANGE, 5, "r below 0");
    is_refused(HEAD BUS_LINES "03000100043FD000000000000001\n", FEEDER_NOT_LISTED, 5, "an end that is not listed");
    is_refused(HEAD RECORDS "04000A000302\n", FEEDER_NOT_LISTED, 8, "a switch on no branch");
    is_refused(HEAD BUS_1 BUS_1, FEEDER_ID_TWICE, 3, "a bus id twice");
    is_refused(HEAD RECORDS "04000A000102\n04000A000203\n", FEEDER_ID_TWICE, 9, "a switch id twice");
    is_refused(THREE_ON_A_BRANCH, FEEDER_THIRD_SWITCH, 10, "a third switch on a branch");
    is_refused(HEAD_FOR("0005", "000064") RECORDS FOUR_SWITCHES "04000E000202\n", FEEDER_THIRD_SWITCH, 12, "a fifth switch, the third on branch 2");
    is_refused(HEAD_FOR("0003", "000064") RECORDS "04000A000102\n04000B000103\n04000A000102\n", FEEDER_ID_TWICE, 10, "a third switch on a branch, its id twice");
    comes_back(HEAD RECORDS "04000A000102\n04000B000103\n", "two switches on a branch");
    comes_back(BOTH_ENDS, "two switches on two branches");
    is_refused(eleven_ties(2, 11), FEEDER_TOO_MANY_TIES, 25, "an eleventh tie by exhaustion");
    is_refused(eleven_ties(2, 6), FEEDER_TOO_MANY_TIES, 20, "an eleventh tie by exhaustion, two on a branch");
    is_refused(eleven_ties(2, 5), FEEDER_THIRD_SWITCH, 19, "an eleventh tie by exhaustion, a third switch on its branch");
    comes_back(eleven_ties(1, 11), "eleven ties by tabu");
    comes_back(eleven_ties(1, 6), "eleven ties by tabu, two on a branch");
}

/* How many bytes each of the triangle's records has. */
static const size_t sizes[] = {FEEDER_HEAD_BYTES, FEEDER_BUS_BYTES, FEEDER_BUS_BYTES, FEEDER_BUS_BYTES, FEEDER_BRANCH_BYTES,
                               FEEDER_BRANCH_BYTES, FEEDER_BRANCH_BYTES, FEEDER_SWITCH_BYTES, FEEDER_SWITCH_BYTES};

/* The triangle's records cut off at every length. The lines that are whole are as they must be, so the fault is behind them: a part of a record is a line of another length, and
 * behind a whole one a line is missing. */
static void cut_off(void) {
    size_t whole = 0, end = sizes[0], length = lay_records(TRIANGLE);
    for (size_t n = 0; n < length; n++) {
        if (n == end)
            end += sizes[++whole];
        write_records(n, FEEDER_FRAMES_LENGTH, FEEDER_BAD_LINE, 1 + whole, "", "the triangle's records cut off");
    }
}

/* Every other kind byte at every record: that line is refused. */
static void other_kinds(void) {
    for (size_t k = 0, begin = 0; k < sizeof sizes / sizeof sizes[0]; begin += sizes[k++])
        for (unsigned kind = 0; kind < 256; kind++) {
            size_t length = lay_records(TRIANGLE);
            if (records[begin] != kind) {
                records[begin] = (uint8_t)kind;
                write_records(length, FEEDER_FRAMES_LENGTH, FEEDER_BAD_LINE, 1 + k, "", "another kind");
            }
        }
}

/* Records without end: the same bytes behind those of a text. */
static void endless(const char *text, const char *record, unsigned number, unsigned place, const char *what) {
    static uint8_t one[FEEDER_HEAD_BYTES];
    size_t size = lay_records(record), begin;
    memcpy(one, records, size);
    begin = lay_records(text);
    for (size_t k = begin; k < MANY; k++)
        records[k] = one[(k - begin) % size];
    write_records(MANY, FEEDER_FRAMES_LENGTH, number, place, "", what);
}

static void endless_records(void) {
    static const char *const all[] = {NO_BUSES, BUS_1, OWN_LOOP, "04000A000102\n", "06\n", "FF\n", "00\n"};
    for (size_t k = 0; k < sizeof all / sizeof all[0]; k++) {
        endless("", all[k], FEEDER_BAD_LINE, k == 0 ? 2 : 1, "records without end");
        endless(TRIANGLE, all[k], FEEDER_BAD_LINE, 10, "records without end behind the triangle's");
        endless(TRIANGLE SUPPLY_1, all[k], FEEDER_BAD_LINE, 11, "records without end behind the triangle's supply");
    }
    endless("", SUPPLY_1, FEEDER_BAD_LINE, 1, "supplies without end");
    endless(TRIANGLE, SUPPLY_1, FEEDER_BAD_LINE, 11, "supplies without end behind the triangle's records");
    endless(TRIANGLE, "05\n", FEEDER_SUPPLY_NOT_LISTED, 10, "bytes 05 without end behind the triangle's records: the supply is bus 0505");
}

/* A text that names the supply, and what its base and its exchanged state lose. Losses are away from the supply, forms and plans as without the line. */
static void fed(const char *text, double base, double exchanged, const char *what) {
    expect_answer(loss(text, "\0\1", 2), 0, 0, bits(base), what);
    expect_answer(loss(text, "\1\0", 2), 0, 0, bits(exchanged), what);
    expect_answer(loss(text, "\0\0", 2), FEEDER_NOT_RADIAL, 0, 0, what);
    expect_answer(loss(text, "\1\1", 2), FEEDER_NOT_RADIAL, 0, 0, what);
    expect_answer(loss(text, "\0\0\0", 3), FEEDER_BAD_STATE, 0, 0, what);
    expect_answer(loss(text, "\2\0", 2), FEEDER_BAD_STATE, 0, 0, what);
    has_form(text, "\0\1", 2, 0, NO_BRANCH, what);
    has_form(text, "\0\0", 2, 0, 2, what);
    has_form(text, "\1\1", 2, 1, NO_BRANCH, what);
    plan(text, "\0\1", 2, "\1\0", 2, 15, 0, 0, 1, "8601000B01000A\n", what);
    plan(text, "\0\1", 2, "\1\1", 2, ROOM, FEEDER_NOT_RADIAL, 1, 0, "", what);
    resume(text, "\0\1", 2, "\1\1", 2, 0, ROOM, ROOM, FEEDER_NOT_RADIAL, 1, 0, "", "", what);
    cut_plan(text, "\0\1", "\1\0", 1, what);
    operations(text, "\0\0", 2, "\1\0", 2, 9, 0, 0, 1, "82000A00\n", what);
    base_state(text, 2, 0, 0, "\0\1", 2, what);
    comes_back(text, what);
    write_records(lay_records(text), strlen(text) - 1, FEEDER_NO_ROOM, 0, "", what);
}

/* A text that every call refuses, before the states and the room; and so are its records, but for refusal 1. */
static void refused_by_all(const char *text, unsigned number, unsigned place, const char *what) {
    expect_answer(radiality(text, "\2", 1), number, place, 0, what);
    expect_answer(form(text, "\2", 1), number, place, 0, what);
    expect_answer(loss(text, "\2", 1), number, place, 0, what);
    plan(text, "\2", 1, "\2", 1, 0, number, place, 0, "", what);
    resume(text, "\2", 1, "\2", 1, UINT64_MAX, 0, 0, number, place, 0, "", "", what);
    resume(text, "\0\1", 2, "\1\0", 2, 1, FEEDER_MOVES_LENGTH, FEEDER_MOVES_LENGTH, number, place, 0, "", "", what);
    operations(text, "\2", 1, "\2", 1, 0, number, place, 0, "", what);
    answer_text(text, FEEDER_TEXT_LENGTH, number, place, "", what);
    answer_text(text, 0, number, place, "", what);
    base_state(text, 0, number, place, "", 0, what);
    solve(text, 0, not_solved(number, place), "", 0, what);
    if (number != FEEDER_BAD_CHARACTERS)
        is_refused(text, number, place, what);
}

static void supplies(void) {
    struct feeder_solved exchanged = {0, 0, 1, 1, 2, 4.0, 1.0, 75.0};
    struct feeder_solved moved = {0, 0, 1, 1, 100, 4.0, 4.0, 0.0};
    struct feeder_solved tried = {0, 0, 1, 1, 1, 4.0, 4.0, 0.0};
    struct feeder_solved turned = {0, 0, 1, 1, 1, 1.75, 1.75, 0.0};
    struct feeder_solved at_3 = {0, 0, 1, 1, 1, 0.4375, 0.4375, 0.0};
    expect_answer(loss(TURNED, "\0\1", 2), 0, 0, bits(1.75), "branch 0 turned, no supply");
    solve(TURNED, 2, turned, "\0\1", 2, "branch 0 turned, no supply");
    fed(TRIANGLE SUPPLY_1, 4.0, 1.0, "the triangle fed at bus 1");
    fed(TURNED SUPPLY_1, 4.0, 1.0, "branch 0 turned, fed at bus 1");
    fed(TRIANGLE "050002\n", 1.75, 1.75, "the triangle fed at bus 2");
    fed(TURNED "050002\n", 1.75, 1.75, "branch 0 turned, fed at bus 2");
    fed(TRIANGLE SUPPLY_3, 0.4375, 0.4375, "the triangle fed at bus 3");
    answer_text(TRIANGLE SUPPLY_1, strlen(PRINTED), 0, 0, PRINTED, "the triangle fed at bus 1, answered");
    answer_text(TURNED SUPPLY_1, strlen(PRINTED), 0, 0, PRINTED, "branch 0 turned, fed at bus 1, answered");
    answer_text(TRIANGLE SUPPLY_3, ANSWER_AND_FORM, 0, 0, "81013FDC0000000000003FDC0000000000000000000000000000000101\n" TREE_LINE, "the triangle fed at bus 3, answered");
    solve(TURNED SUPPLY_1, 2, exchanged, "\1\0", 2, "fed at bus 1, by exchange");
    solve(TRIANGLE SUPPLY_3, 2, at_3, "\0\1", 2, "fed at bus 3, by exchange");
    solve(HEAD_OF("010064") RECORDS SWITCHES SUPPLY_1, 2, moved, "\0\1", 2, "fed at bus 1, by tabu");
    solve(HEAD_OF("020064") RECORDS SWITCHES SUPPLY_1, 2, tried, "\0\1", 2, "fed at bus 1, by exhaustion");
    expect_answer(loss("01000100000000" ONE "000064\n" BUS_1 SUPPLY_1, "", 0), 0, 0, 0, "the only bus is the supply");
    refused_by_all(TRIANGLE "050009\n", FEEDER_SUPPLY_NOT_LISTED, 10, "a supply that is not listed");
    refused_by_all(TRIANGLE "050000\n", FEEDER_SUPPLY_NOT_LISTED, 10, "a position for the supply's id");
    refused_by_all(NO_BUSES SUPPLY_1, FEEDER_SUPPLY_NOT_LISTED, 2, "a supply of no buses");
    refused_by_all(NO_TIES SUPPLY_1, FEEDER_BASE_NOT_RADIAL, 10, "a supply, and a base with a loop");
    refused_by_all(NO_TIES "050009\n", FEEDER_SUPPLY_NOT_LISTED, 10, "a supply that is not listed, and a base with a loop");
    refused_by_all(HEAD RECORDS "04000A000103\n04000B000203\n" SUPPLY_1, FEEDER_BASE_NOT_RADIAL, 10, "a supply, and a base that cuts a bus off");
    refused_by_all(TRIANGLE SUPPLY_1 SUPPLY_1, FEEDER_BAD_LINE, 11, "a second supply");
    refused_by_all(TRIANGLE "050009\n" SUPPLY_1, FEEDER_SUPPLY_NOT_LISTED, 10, "a supply that is not listed, and a second one");
    refused_by_all(TRIANGLE "050001", FEEDER_BAD_CHARACTERS, 10, "an unended supply");
    refused_by_all(TRIANGLE "05000a\n", FEEDER_BAD_CHARACTERS, 10, "a supply in lower case");
    refused_by_all(TRIANGLE "060001\n", FEEDER_BAD_LINE, 10, "kind 06 for the supply");
    refused_by_all(HEAD RECORDS SUPPLY_1 SWITCHES, FEEDER_BAD_LINE, 8, "a supply before the switches");
    refused_by_all(HEAD RECORDS "04000A000102\n04000A000203\n050009\n", FEEDER_ID_TWICE, 9, "a switch id twice, and a supply that is not listed");
    for (size_t length = lay_records(TRIANGLE) + 1; length < lay_records(TRIANGLE SUPPLY_1); length++)
        write_records(length, FEEDER_FRAMES_LENGTH, FEEDER_BAD_LINE, 10, "", "the supply's record cut off");
}

/* The largest feeder: buses 1 to 256 in a row, 1 MW at the last. Branches 0 to 254 are the row, 255 to 509 lie beside them and lose nothing, 510
 * and 511 lie beside branch 0. The switch on branch k has the id 1000 + k. */
enum { BUSES = FEEDER_MAX_BUSES, BRANCHES = FEEDER_MAX_BRANCHES, ROW = BUSES - 1, FIRST_ID = 1000, TEN = FEEDER_MAX_TIES };
static char largest[FEEDER_LONGEST_TEXT + 1];

/* Normally open is what lies beside the row; but for tabu (01) the last branch is closed, a loop, and for exhaustion (02) the ends of the row are
 * the ten ties, and what lies beside is out of service. */
static int normally_open(unsigned method, int k) {
    if (method == 2)
        return ROW - TEN <= k && k < ROW;
    return ROW <= k && (method == 0 || k < BRANCHES - 1);
}

/* Supply 0: no line for it. */
static void make_largest(unsigned method, unsigned iterations, unsigned supply) {
    char *at = largest;
    at += sprintf(at, "01%04X%04X%04X" ONE "%02X%04X\n", BUSES, BRANCHES, BRANCHES, method, iterations);
    for (int bus = 1; bus <= BUSES; bus++)
        at += sprintf(at, "02%04X%s\n", bus, bus == BUSES ? ONE : ZERO);
    for (int k = 0; k < BRANCHES; k++) {
        int beside = ROW <= k && k < 2 * ROW;
        int from = 1 + (k < ROW ? k : beside ? k - ROW : 0);
        at += sprintf(at, "03%04X%04X%s%02X\n", from, from + 1, beside ? ZERO : ONE, method != 2 || k < ROW);
    }
    for (int k = 0; k < BRANCHES; k++)
        at += sprintf(at, "04%04X%04X%02X\n", FIRST_ID + k, k, normally_open(method, k) ? 3 : 2);
    if (supply != 0)
        sprintf(at, "05%04X\n", supply);
}

/* The 81 line of a search whose best state is a tree, and its 84 line. */
static char *head_of_answer(char *at, double base, double best, double reduction, unsigned iterations, unsigned converged) {
    return at + sprintf(at, "8101%016llX%016llX%016llX%04X%02X\n" TREE_LINE, (unsigned long long)bits(base), (unsigned long long)bits(best),
                        (unsigned long long)bits(reduction), iterations, converged);
}

/* The texts of the largest feeder, without a supply and with one: it is the longest. */
static void largest_texts(unsigned supply) {
    size_t more = supply != 0, length = FEEDER_LONGEST_TEXT - (more ? 0 : strlen(SUPPLY_1));
    size_t size = FEEDER_LONGEST_RECORDS - (more ? 0 : FEEDER_SUPPLY_BYTES);
    make_largest(0, 1, supply);
    expect(strlen(largest) == length, "the largest text has as many bytes as the header says");
    expect(lay_records(largest) == size, "the largest text's records have as many bytes as the header says");
    write_records(size, length, 0, 0, largest, "the largest text, an exactly full slice");
    write_records(size, length - 1, FEEDER_NO_ROOM, 0, "", "the largest text, one byte short");
    write_records(size + 1, FEEDER_FRAMES_LENGTH, FEEDER_BAD_LINE, 1282 + more, "", "the largest text's records and a byte");
    write_records(size - 1, FEEDER_FRAMES_LENGTH, FEEDER_BAD_LINE, 1281 + more, "", "the largest text's records but a byte");
    endless(largest, NO_BUSES, FEEDER_BAD_LINE, 1282 + more, "records without end behind the largest text's");
}

/* The state in which these branches of the largest feeder are closed. */
static void close_alone(char *state, int from, int to) {
    for (int k = 0; k < BRANCHES; k++)
        state[k] = !(from <= k && k < to);
}

/* The forms of the largest feeder: what is known by hand, and drawn states from few closed switches to many. */
static void largest_forms(void) {
    static char state[BRANCHES];
    close_alone(state, 0, 0);
    has_form(largest, state, BRANCHES, ROW, NO_BRANCH, "all open: 255 islands");
    close_alone(state, 0, BRANCHES);
    has_form(largest, state, BRANCHES, 0, ROW, "all closed: the first branch beside the row");
    close_alone(state, 0, ROW);
    has_form(largest, state, BRANCHES, 0, NO_BRANCH, "the row");
    state[BRANCHES - 1] = 0;
    has_form(largest, state, BRANCHES, 0, BRANCHES - 1, "the row and the last branch, which closes the loop");
    state[100] = 1;
    has_form(largest, state, BRANCHES, 1, BRANCHES - 1, "the row but for a branch, and the last one: a loop, an island, and as many branches as a tree");
    state[0] = 1;
    has_form(largest, state, BRANCHES, 1, NO_BRANCH, "the same without branch 0: no loop is left");
    close_alone(state, 2 * ROW, BRANCHES);
    has_form(largest, state, BRANCHES, ROW - 1, BRANCHES - 1, "the last two branches, which are parallel");
    for (int k = 0; k < ROW; k += 2)
        state[k] = 0;
    has_form(largest, state, BRANCHES, ROW / 2, 2 * ROW, "every second branch of the row, and the last two beside the first");
    for (int percent = 1; percent < 100; percent += 2) {
        for (int k = 0; k < BRANCHES; k++)
            state[k] = draw(100) >= (unsigned)percent;
        is_formed(largest, state, BRANCHES, "a drawn state of the largest feeder");
    }
    expect_answer(form(largest, state, BRANCHES - 1), FEEDER_BAD_STATE, 0, 0, "form, the largest state one byte short");
    state[BRANCHES - 1] = 2;
    expect_answer(form(largest, state, BRANCHES), FEEDER_BAD_STATE, 0, 0, "form, the largest state's last byte 2");
}

/* Every branch of the row leads away from bus 1: with the supply there all is as without one. */
static void largest_feeder(unsigned supply) {
    static char row[BRANCHES], beside[BRANCHES], mixed[BRANCHES], all_closed[BRANCHES], all_open[BRANCHES], written[FEEDER_TEXT_LENGTH + 1];
    struct feeder_solved best = {0, 0, 1, 0, 1, 255.0, 254.0, 0.0};
    char *at = written;
    for (int k = 0; k < BRANCHES; k++) {
        row[k] = k >= ROW;
        beside[k] = !(ROW <= k && k < 2 * ROW);
        mixed[k] = k % ROW % 3 == 0 ? row[k] : beside[k];
        all_open[k] = 1;
    }
    largest_texts(supply);
    expect_answer(radiality(largest, row, BRANCHES), 0, 0, 1, "the row is radial");
    expect_answer(radiality(largest, beside, BRANCHES), 0, 0, 1, "what lies beside is radial");
    largest_forms();
    expect_answer(loss(largest, row, BRANCHES), 0, 0, bits(255.0), "the row's loss");
    expect_answer(loss(largest, beside, BRANCHES), 0, 0, 0, "what lies beside loses nothing");
    for (int k = 0; k < ROW; k++)
        at += sprintf(at, "8601%04X01%04X\n", FIRST_ID + ROW + k, FIRST_ID + k);
    plan(largest, row, BRANCHES, beside, BRANCHES, FEEDER_PLAN_LENGTH, 0, 0, ROW, written, "255 pairs, room for every plan");
    plan(largest, row, BRANCHES, beside, BRANCHES, strlen(written), 0, 0, ROW, written, "255 pairs, an exactly full slice");
    plan(largest, row, BRANCHES, beside, BRANCHES, strlen(written) - 1, 13, 0, 0, "", "255 pairs, one byte short");

    cut_plan(largest, row, beside, ROW, "255 pairs, cut off");
    if (supply == 0)
        cut_plan(largest, beside, row, ROW, "255 pairs the other way, cut off");
    cut_plan(largest, mixed, beside, ROW / 3, "a plan of 85 pairs, cut off");

    base_state(largest, FEEDER_MAX_SWITCHES, 0, 0, row, BRANCHES, "the largest base, an exactly full slice");
    base_state(largest, FEEDER_MAX_SWITCHES - 1, FEEDER_NO_ROOM, 0, "", 0, "the largest base, one byte short");
    at = written;
    for (int k = 0; k < BRANCHES; k++)
        at += sprintf(at, "82%04X00\n", FIRST_ID + k);
    operations(largest, all_closed, BRANCHES, all_open, BRANCHES, FEEDER_OPERATIONS_LENGTH, 0, 0, BRANCHES, written,
               "the longest list of operations, an exactly full slice");
    operations(largest, all_closed, BRANCHES, all_open, BRANCHES, FEEDER_OPERATIONS_LENGTH - 1, FEEDER_NO_ROOM, 0, 0, "",
               "the longest list of operations, one byte short");

    best.reduction = (255.0 - 254.0) / 255.0 * 100.0;
    at = head_of_answer(written, best.base_loss, best.best_loss, best.reduction, best.iterations, best.converged);
    sprintf(at, "82%04X00\n82%04X01\n8601%04X01%04X\n", FIRST_ID + 254, FIRST_ID + 509, FIRST_ID + 509, FIRST_ID + 254);
    answer_text(largest, FEEDER_TEXT_LENGTH, 0, 0, written, "the largest feeder's answer by exchange: the last tie that improves");
    row[254] = 1;
    row[509] = 0;
    solve(largest, FEEDER_MAX_SWITCHES, best, row, BRANCHES, "the largest feeder's best state, an exactly full slice");
    solve(largest, FEEDER_MAX_SWITCHES - 1, not_solved(FEEDER_NO_ROOM, 0), "", 0, "the largest feeder's best state, one byte short");
}

/* The longest plan: as many pairs as any, and every switch is moved. The largest feeder's first 510 branches with a switch each, and two more at the ends of the row's first branch
 * and of the last one beside it. */
static void longest_plan(void) {
    static char row[FEEDER_MAX_SWITCHES], beside[FEEDER_MAX_SWITCHES], written[FEEDER_PLAN_LENGTH + 1];
    char *at = largest + sprintf(largest, "01%04X%04X%04X" ONE "000000\n", BUSES, 2 * ROW, FEEDER_MAX_SWITCHES);
    for (int bus = 1; bus <= BUSES; bus++)
        at += sprintf(at, "02%04X" ZERO "\n", bus);
    for (int k = 0; k < 2 * ROW; k++)
        at += sprintf(at, "03%04X%04X" ONE "01\n", 1 + k % ROW, 2 + k % ROW);
    for (int k = 0; k < FEEDER_MAX_SWITCHES; k++) {
        int branch = k < 2 * ROW ? k : k == 2 * ROW ? 0 : 2 * ROW - 1;
        at += sprintf(at, "04%04X%04X%02X\n", FIRST_ID + k, branch, branch < ROW ? 2 : 3);
        row[k] = branch >= ROW;
        beside[k] = !row[k];
    }
    at = written;
    for (int k = 0; k < ROW; k++) {
        at += sprintf(at, k < ROW - 1 ? "8601%04X" : "8602%04X%04X", FIRST_ID + ROW + k, FIRST_ID + FEEDER_MAX_SWITCHES - 1);
        at += sprintf(at, k > 0 ? "01%04X\n" : "02%04X%04X\n", FIRST_ID + k, FIRST_ID + FEEDER_MAX_SWITCHES - 2);
    }
    expect(strlen(written) == FEEDER_PLAN_LENGTH, "the longest plan has as many bytes as the header says");
    has_plan(largest, row, beside, written, "the longest plan");
}

/* Two switches on each of 256 branches: 129 buses in a row, and a branch beside each of the row's. Each pair has four moves, and all 512 switches are moved. */
static void most_moves(void) {
    enum { PAIRS = FEEDER_MAX_SWITCHES / 4 };
    static char row[FEEDER_MAX_SWITCHES], beside[FEEDER_MAX_SWITCHES], written[FEEDER_PLAN_LENGTH + 1];
    char *at = largest + sprintf(largest, "01%04X%04X%04X" ONE "000000\n", PAIRS + 1, 2 * PAIRS, FEEDER_MAX_SWITCHES);
    for (int bus = 0; bus <= PAIRS; bus++)
        at += sprintf(at, "02%04X" ZERO "\n", bus);
    for (int k = 0; k < 2 * PAIRS; k++)
        at += sprintf(at, "03%04X%04X" ONE "01\n", k % PAIRS, k % PAIRS + 1);
    for (int k = 0; k < FEEDER_MAX_SWITCHES; k++) {
        int branch = k < 2 * PAIRS ? k : FEEDER_MAX_SWITCHES - 1 - k;
        at += sprintf(at, "04%04X%04X%02X\n", FIRST_ID + k, branch, branch < PAIRS ? 2 : 3);
        row[k] = branch >= PAIRS;
        beside[k] = !row[k];
    }
    at = written;
    for (int k = 0; k < PAIRS; k++)
        at += sprintf(at, "8602%04X%04X02%04X%04X\n", FIRST_ID + PAIRS + k, FIRST_ID + 3 * PAIRS - 1 - k, FIRST_ID + k, FIRST_ID + 4 * PAIRS - 1 - k);
    has_plan(largest, row, beside, written, "two switches on each of 256 branches");
}

static void other_largest_feeders(void) {
    static char row[BRANCHES], written[FEEDER_TEXT_LENGTH + 1];
    char *at;
    make_largest(1, 2, 0);
    at = head_of_answer(written, 256.0, 255.0, 100.0 / 256.0, 2, 1);
    sprintf(at, "82%04X00\n", FIRST_ID);
    answer_text(largest, FEEDER_TEXT_LENGTH, 0, 0, written, "the largest feeder's answer by tabu: the first that breaks the loop");

    make_largest(2, 0, 0);
    at = head_of_answer(written, 0.0, 255.0, 0.0, 1, 1);
    for (int k = ROW - TEN; k < ROW; k++)
        at += sprintf(at, "82%04X01\n", FIRST_ID + k);
    answer_text(largest, FEEDER_TEXT_LENGTH, 0, 0, written, "the largest feeder's answer by exhaustion: all ten ties closed");

    /* neither base is radial */
    for (unsigned method = 1; method <= 2; method++) {
        make_largest(method, 0, 1);
        refused_by_all(largest, FEEDER_BASE_NOT_RADIAL, 1282, "the largest feeder with a base that is not radial, fed");
    }
    make_largest(0, 1, BUSES + 1);
    refused_by_all(largest, FEEDER_SUPPLY_NOT_LISTED, 1282, "the largest feeder, fed at no bus");

    /* the load is at the last bus: only the branches between it and the supply carry it */
    for (int k = 0; k < BRANCHES; k++)
        row[k] = k >= ROW;
    for (unsigned bus = 1; bus <= BUSES; bus += 51) {
        make_largest(0, 1, bus);
        expect_answer(loss(largest, row, BRANCHES), 0, 0, bits(256.0 - bus), "the row's loss, fed on its way");
    }
}

/* Repairs, reckoned from the lines of a text. */
enum { LINES = 1 + FEEDER_MAX_BUSES + 2 * FEEDER_MAX_BRANCHES + 1, DROPPED = FEEDER_MAX_BRANCHES };

/* The lines of an accepted stored text, and the position that each of its branches has then; DROPPED for one with equal ends. */
static const char *lines[LINES], **branch_lines, **switch_lines, *supply_line;
static unsigned counts[3], position[FEEDER_MAX_BRANCHES];

static void lay_lines(const char *text) {
    unsigned kept = 0;
    size_t count = 0;
    for (const char *at = text; *at != '\0'; at = strchr(at, '\n') + 1)
        lines[count++] = at;
    for (int k = 0; k < 3; k++)
        counts[k] = digits_at(text + 2 + 4 * k, 4);
    branch_lines = lines + 1 + counts[0];
    switch_lines = branch_lines + counts[1];
    supply_line = count > 1 + counts[0] + counts[1] + counts[2] ? lines[count - 1] : "";
    for (unsigned k = 0; k < counts[1]; k++)
        position[k] = strncmp(branch_lines[k] + 2, branch_lines[k] + 6, 4) == 0 ? (unsigned)DROPPED : kept++;
}

static unsigned position_on(const char *switch_line) { return position[digits_at(switch_line + 6, 4)]; }

/* The text that is left, without the 87 lines. */
static char *lay_left(char *at) {
    unsigned branches = 0, switches = 0;
    for (unsigned k = 0; k < counts[1]; k++)
        branches += position[k] != DROPPED;
    for (unsigned i = 0; i < counts[2]; i++)
        switches += position_on(switch_lines[i]) != DROPPED;
    at += sprintf(at, "01%04X%04X%04X%.23s", counts[0], branches, switches, lines[0] + 14);
    for (unsigned k = 0; k < counts[0]; k++)
        at += sprintf(at, "%.23s", lines[1 + k]);
    for (unsigned k = 0; k < counts[1]; k++)
        if (position[k] != DROPPED)
            at += sprintf(at, "%.29s", branch_lines[k]);
    for (unsigned i = 0; i < counts[2]; i++)
        if (position_on(switch_lines[i]) != DROPPED)
            at += sprintf(at, "%.6s%04X%.3s", switch_lines[i], position_on(switch_lines[i]), switch_lines[i] + 10);
    return at + sprintf(at, "%s", supply_line);
}

static const char *reckoned_repair(const char *text) {
    static char written[FEEDER_REPAIR_LENGTH + 1];
    char *at;
    lay_lines(text);
    at = lay_left(written);
    for (unsigned k = 0; k < counts[1]; k++)
        if (position[k] == DROPPED)
            at += sprintf(at, "87%04X01\n", 2 + counts[0] + k);
    for (unsigned i = 0; i < counts[2]; i++)
        if (position_on(switch_lines[i]) == DROPPED)
            at += sprintf(at, "87%04X02\n", 2 + counts[0] + counts[1] + i);
    return written;
}

/* A repair into the middle of guarded bytes. */
static void repair(const char *text, size_t room, unsigned number, unsigned place, const char *written, const char *what) {
    lay_slice(written, strlen(written));
    expect_answer(feeder_repair_text((const uint8_t *)text, strlen(text), bytes + MARGIN, room), number, place, strlen(written), what);
    expect(memcmp(bytes, right, sizeof bytes) == 0, what);
}

/* In slices that are exactly full, longer, one byte short and of no byte. */
static void repair_in_rooms(const char *text, const char *written, const char *what) {
    size_t length = strlen(written);
    repair(text, FEEDER_REPAIR_LENGTH, 0, 0, written, what);
    repair(text, length, 0, 0, written, what);
    repair(text, length - 1, FEEDER_NO_ROOM, 0, "", what);
    repair(text, 0, FEEDER_NO_ROOM, 0, "", what);
}

/* A text that is accepted comes out byte for byte. */
static void is_clean(const char *text, const char *what) { repair_in_rooms(text, text, what); }

/* A stored text that is refused by its first branch with equal ends, and what is left of it: read by the other calls, and repaired it is the same. */
static void is_repaired(const char *text, unsigned place, const char *what) {
    static char left[FEEDER_REPAIR_LENGTH + 1];
    const char *written = reckoned_repair(text);
    refused_by_all(text, FEEDER_OWN_LOOP, place, what);
    repair_in_rooms(text, written, what);
    *lay_left(left) = '\0';
    is_clean(left, what);
    comes_back(left, what);
    expect(feeder_answer_text((const uint8_t *)left, strlen(left), right, sizeof right).number == 0, what);
    expect_answer(feeder_base_state((const uint8_t *)left, strlen(left), right, sizeof right), 0, 0, digits_at(left + 10, 4), what);
}

/* The same where what is written is known by hand. */
static void has_repair(const char *text, unsigned place, const char *written, const char *what) {
    repair_in_rooms(text, written, what);
    is_repaired(text, place, what);
}

/* A stored text that the repair refuses too, before the room. */
static void has_no_repair(const char *text, unsigned number, unsigned place, const char *what) {
    repair(text, FEEDER_REPAIR_LENGTH, number, place, "", what);
    repair(text, 0, number, place, "", what);
}

/* Two faults: what every other call answers, and what the repair does. */
static void has_two_faults(const char *text, unsigned first, unsigned place, unsigned number, unsigned later, const char *what) {
    refused_by_all(text, first, place, what);
    has_no_repair(text, number, later, what);
}

/* The triangle with a branch from bus 2 to itself behind its branch 0, and switch 12 on it between 10 and 11. */
#define STORED_HEAD(branches, switches, method) "010003" branches switches ONE method "0064\n"
#define BRANCH_0 "03000100023FD000000000000001\n"
#define BEHIND_IT "03000200033FDC00000000000001\n03000100033FC800000000000001\n"
#define OWN_LOOP_2 "03000200023FD000000000000001\n"
#define STORED_BRANCHES BRANCH_0 OWN_LOOP_2 BEHIND_IT
#define STORED_WITH(switches) STORED_HEAD("0004", "0003", "00") BUS_LINES STORED_BRANCHES switches
#define STORED STORED_WITH("04000A000202\n04000C000102\n04000B000303\n")
#define STORED_LOOP STORED_WITH("04000A000202\n04000C000102\n04000B000302\n")
#define TWO_DROPPED "87000601\n87000A02\n"
#define ONE_BUS(branches, switches) "010001" branches switches ONE "000064\n" BUS_1

static void repaired_texts(void) {
    has_repair(STORED, 6, TRIANGLE TWO_DROPPED, "the triangle with an own loop and its switch");
    has_repair(STORED SUPPLY_1, 6, TRIANGLE SUPPLY_1 TWO_DROPPED, "the triangle with an own loop, fed");
    has_repair(ONE_BUS("0001", "0000") OWN_LOOP, 3, ONE_BUS("0000", "0000") "87000301\n", "one bus with its own loop");
    has_repair(ONE_BUS("0002", "0003") OWN_LOOP "03000100013FD000000000000000\n040001000103\n040002000000\n040003000102\n" SUPPLY_1, 3,
               ONE_BUS("0000", "0000") SUPPLY_1 "87000301\n87000401\n87000502\n87000602\n87000702\n", "own loops in and out of service, with one switch and with two, fed");
    has_repair(STORED_HEAD("0005", "0002", "02") BUS_LINES OWN_LOOP_2 BRANCH_LINES "03000300033FF000000000000000\n" "04000A000202\n04000B000303\n", 5,
               HEAD_OF("020064") RECORDS SWITCHES "87000501\n87000901\n", "the first and the last branch, without switches");
    is_clean(TRIANGLE, "the triangle");
    is_clean(TRIANGLE SUPPLY_1, "the triangle fed");
    is_clean(NO_BUSES, "no buses");
    is_clean(NO_TIES, "a loop without a tie");
    is_clean(BOTH_ENDS, "two switches on two branches");
    is_clean(DOUBLE_ROW "040001000102\n040002000303\n040003000103\n040004000002\n040005000202\n", "parallel branches stay");
}

static void refused_repairs(void) {
    has_no_repair("", FEEDER_BAD_LINE, 1, "an empty text");
    has_no_repair("0G", FEEDER_BAD_CHARACTERS, 1, "another character");
    has_two_faults(STORED_LOOP SUPPLY_1, FEEDER_OWN_LOOP, 6, FEEDER_BASE_NOT_RADIAL, 12, "a loop that stays, fed: 15 at the old line");
    has_two_faults(STORED_LOOP SUPPLY_1 SUPPLY_1, FEEDER_OWN_LOOP, 6, FEEDER_BASE_NOT_RADIAL, 12, "a loop that stays, fed twice");
    has_two_faults(STORED SUPPLY_1 SUPPLY_1, FEEDER_OWN_LOOP, 6, FEEDER_BAD_LINE, 13, "15 cured, and a line too many");
    has_two_faults(STORED "050009\n", FEEDER_OWN_LOOP, 6, FEEDER_SUPPLY_NOT_LISTED, 12, "an own loop, fed at no bus");
    has_two_faults(STORED "05", FEEDER_OWN_LOOP, 6, FEEDER_BAD_CHARACTERS, 12, "an own loop, and an unended line");
    has_two_faults(HEAD BUS_LINES "03000400043FD000000000000001\n", FEEDER_NOT_LISTED, 5, FEEDER_NOT_LISTED, 5, "an own loop at a bus that is not listed");
    has_two_faults(HEAD BUS_LINES "0300020002BFD000000000000001\n", FEEDER_OUT_OF_RANGE, 5, FEEDER_OUT_OF_RANGE, 5, "an own loop with r below 0");
    has_two_faults(HEAD BUS_LINES "03000200023FD000000000000002\n", FEEDER_NO_MEANING, 5, FEEDER_NO_MEANING, 5, "an own loop with status 02");
    has_two_faults(HEAD BUS_LINES OWN_LOOP_2 "03000100043FD000000000000001\n", FEEDER_OWN_LOOP, 5, FEEDER_NOT_LISTED, 6, "an own loop, and an end that is not listed");
    has_two_faults(STORED_WITH("04000A000202\n04000C000102\n04000B000402\n"), FEEDER_OWN_LOOP, 6, FEEDER_NOT_LISTED, 11, "an own loop, and a switch on no branch");
    has_two_faults(STORED_WITH("04000A000202\n04000A000102\n04000B000303\n"), FEEDER_OWN_LOOP, 6, FEEDER_ID_TWICE, 10, "an id twice, the second on the own loop");
    has_two_faults(STORED_WITH("04000A000102\n04000A000202\n04000B000303\n"), FEEDER_OWN_LOOP, 6, FEEDER_ID_TWICE, 10, "an id twice, the first on the own loop");
    has_two_faults(STORED_WITH("04000A000102\n04000C000102\n04000B000103\n"), FEEDER_OWN_LOOP, 6, FEEDER_THIRD_SWITCH, 11, "a third switch on the own loop");
    has_two_faults(STORED "04000D000302\n", FEEDER_OWN_LOOP, 6, FEEDER_BAD_LINE, 12, "an own loop, and a switch too many");
}

/* Eleven ties, of which so many are on own loops; method 02 takes ten. */
static void dropped_ties(void) {
    static char text[1024];
    for (unsigned own = 1; own <= 11; own++)
        for (unsigned method = 1; method <= 2; method++) {
            char *at = text + sprintf(text, "010002000B000B" ONE "%02X0000\n" BUS_1 BUS_2, method);
            for (unsigned k = 0; k < 11; k++)
                at += sprintf(at, k < 11 - own ? BRANCH_0 : OWN_LOOP_2);
            for (unsigned k = 0; k < 11; k++)
                at += sprintf(at, "04%04X%04X03\n", k, k);
            if (method == 2)
                has_two_faults(text, FEEDER_OWN_LOOP, 15 - own, FEEDER_TOO_MANY_TIES, 25, "an eleventh tie, ties on own loops counted");
            else
                is_repaired(text, 15 - own, "eleven ties by tabu, some on own loops");
        }
}

/* Own loops put among the branches and their switches among the switches of a drawn feeder: their repair gives it back. */
enum { MOST_OWN = 4 };
static char stored_text[sizeof drawn_text + MOST_OWN * (29 + 2 * 13)], stored_repair[2 * sizeof stored_text];

/* So many places of a list, of which some are for what is put in. */
static void draw_places(unsigned *places, unsigned count, unsigned put_in) {
    for (unsigned k = 0; k < count; k++)
        places[k] = k < put_in;
    shuffle(places, count);
}

/* The branches, and where each of the drawn ones stands then; each own loop is twice in the list of those on which a switch may be put. The line of the first own loop. */
static unsigned moved[DRAWN_BRANCHES], loops[2 * MOST_OWN];

static unsigned put_in_branches(char **at, char **said, unsigned own) {
    unsigned among[DRAWN_BRANCHES + MOST_OWN], old = 0, put = 0, first = 0;
    draw_places(among, counts[1] + own, own);
    for (unsigned k = 0; k < counts[1] + own; k++)
        if (among[k]) {
            unsigned bus = 999 - draw(counts[0]), line = 2 + counts[0] + k;
            first = first == 0 ? line : first;
            loops[put] = loops[put + own] = k;
            put++;
            *at += sprintf(*at, "03%04X%04X" ONE "%02X\n", bus, bus, draw(2));
            *said += sprintf(*said, "87%04X01\n", line);
        } else {
            moved[old] = k;
            *at += sprintf(*at, "%.29s", branch_lines[old++]);
        }
    shuffle(loops, 2 * own);
    return first;
}

/* The switches; with method 02 none that is put in is a tie. */
static void put_in_switches(char *at, char *said, unsigned own, unsigned extra) {
    unsigned among[DRAWN_SWITCHES + 2 * MOST_OWN], old = 0, put = 0, method = digits_at(drawn_text + 30, 2);
    draw_places(among, counts[2] + extra, extra);
    for (unsigned i = 0; i < counts[2] + extra; i++)
        if (among[i]) {
            at += sprintf(at, "04%04X%04X%02X\n", ((1000 + put) * 40503 + 77) % 65536, loops[put], 2 * draw(2) + (method == 2 ? 0 : draw(2)));
            put++;
            said += sprintf(said, "87%04X02\n", 2 + counts[0] + counts[1] + own + i);
        } else {
            at += sprintf(at, "%.6s%04X%.3s", switch_lines[old], moved[digits_at(switch_lines[old] + 6, 4)], switch_lines[old] + 10);
            old++;
        }
}

static unsigned put_in_own_loops(void) {
    unsigned own = 1 + draw(MOST_OWN), extra = draw(2 * own + 1), first;
    char *at = stored_text, *said = stored_repair + sprintf(stored_repair, "%s", drawn_text);
    lay_lines(drawn_text);
    at += sprintf(at, "01%04X%04X%04X%.23s", counts[0], counts[1] + own, counts[2] + extra, drawn_text + 14);
    at += sprintf(at, "%.*s", (int)(23 * counts[0]), lines[1]);
    first = put_in_branches(&at, &said, own);
    put_in_switches(at, said, own, extra);
    return first;
}

static void drawn_repairs(void) {
    for (unsigned number = 0; number < DRAWN; number++) {
        unsigned place;
        draw_feeder(number % 3);
        is_clean(drawn_text, "a drawn feeder comes out byte for byte");
        place = put_in_own_loops();
        has_repair(stored_text, place, stored_repair, "a drawn feeder with own loops put in");
    }
}

/* The largest texts: 512 own loops with a switch each, or two on every second one; and those of the largest feeder that lie beside its row. */
static void largest_repairs(void) {
    char *at = largest + sprintf(largest, "01%04X%04X%04X" ONE "000000\n", BUSES, BRANCHES, BRANCHES), *rest;
    for (int bus = 0; bus < BUSES; bus++)
        at += sprintf(at, "02%04X" ZERO "\n", bus);
    for (int k = 0; k < BRANCHES; k++)
        at += sprintf(at, "03%04X%04X" ONE "01\n", BUSES - 1, BUSES - 1);
    rest = at;
    for (int two = 0; two < 2; two++) {
        at = rest;
        for (int k = 0; k < BRANCHES; k++)
            at += sprintf(at, "04%04X%04X02\n", k, two ? k / 2 * 2 : k);
        is_repaired(largest, 258, "512 own loops at the last bus, with 512 switches");
    }
    make_largest(0, 1, 1);
    is_clean(largest, "the longest text comes out byte for byte");
    for (int k = ROW; k < BRANCHES; k++) {
        char *line = largest + 37 + BUSES * 23 + k * 29;
        memcpy(line + 6, line + 2, 4);
    }
    is_repaired(largest, 2 + BUSES + ROW, "the longest text with own loops beside its row");
    make_largest(0, 1, 0);
    is_clean(largest, "the largest text without a supply comes out byte for byte");
    repair(largest, FEEDER_REPAIR_LENGTH - strlen(SUPPLY_1), 0, 0, largest, "the largest text without a supply, an exactly full slice");
}

static void *run(void *unused) {
    (void)unused;
    radialities();
    forms();
    losses();
    plans();
    resumed_plans();
    cut_plan(TRIANGLE, "\0\1", "\1\0", 1, "the triangle's plan, cut off");
    cut_plan(TRIANGLE, "\1\0", "\0\1", 1, "the triangle's plan the other way, cut off");
    cut_plan(TRIANGLE, "\1\0", "\1\0", 0, "no plan, cut off");
    both_ends();
    drawn_plans();
    texts();
    bases();
    searches();
    operation_lists();
    nulls();
    written_texts();
    refused_records();
    cut_off();
    other_kinds();
    endless_records();
    supplies();
    largest_feeder(0);
    largest_feeder(1);
    other_largest_feeders();
    longest_plan();
    most_moves();
    repaired_texts();
    refused_repairs();
    dropped_ties();
    drawn_repairs();
    largest_repairs();
    return NULL;
}

int main(void) {
    pthread_attr_t attributes;
    pthread_t thread;
    expect(sizeof(struct feeder_answer) == 16, "the answer has 16 bytes");
    expect(sizeof(struct feeder_solved) == 32, "a search's answer has 32 bytes");
    expect(FEEDER_FRAMES_LENGTH == 27436, "room for every text");
    expect(FEEDER_REPAIR_LENGTH == 27436, "room for every repair");
    expect(FEEDER_DROPPED_LENGTH == 9, "an 87 line");
    expect(FEEDER_PAIR_LENGTH == 23, "the longest 86 line");
    expect(FEEDER_PLAN_LENGTH == 3833, "room for every plan");
    expect(FEEDER_TEXT_LENGTH == 8511, "room for every answer");
    expect(FEEDER_MOVES_LENGTH == 4608, "room for every move");
    expect(FEEDER_LONGEST_RECORDS == 13077, "the records of the longest text");
    if (pthread_attr_init(&attributes) != 0 || pthread_attr_setstacksize(&attributes, FEEDER_STACK) != 0
        || pthread_create(&thread, &attributes, run, NULL) != 0 || pthread_join(thread, NULL) != 0) {
        printf("interface: C: no thread\n");
        return 1;
    }
    printf("interface: C: %d checks, %d wrong\n", checks, failures);
    return failures == 0 ? 0 : 1;
}
