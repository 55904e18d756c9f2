/* The calls of Lugwefa for controllers and rollout tools.
 *
 * include/build proves them and writes target/library/libcontroller.a (x86-64 Linux; it needs memcpy, memmove and memset and
 * nothing else). Their promises are the equations in crates/controller_c/src/lib.rt, those of crates/controller/src/calls.rt. Nothing checks
 * this header against these files but the programs of tests/interface.
 *
 * A text is a feeder in the frames of docs/INTERFACE.md. A state has one byte for each switch of the text, in its order: 0 closed, 1 open. Any bytes of any
 * length may be handed over: what is not acceptable is refused.
 *
 * What the caller owes, and nothing tests: each pointer is good for as many bytes as the length behind it says (with length 0 it may
 * be null), nothing else writes these bytes during the call, and a slice that a call writes to (`out`, `remaining`, `back`) overlaps no other slice of it. No
 * alignment is asked for.
 * A call keeps nothing: it may run in several threads at once. It allocates nothing; it runs on FEEDER_STACK bytes of stack.
 */
#ifndef FEEDER_H
#define FEEDER_H

#include <stddef.h>
#include <stdint.h>

#ifdef __cplusplus
extern "C" {
#endif

#define FEEDER_VERSION "0.12"

/* What a text may list, how many of its switches may be on one branch, how many iterations its head may ask for, and how many of its switches may be normally
 * open with method 02. */
#define FEEDER_MAX_BUSES 256
#define FEEDER_MAX_BRANCHES 512
#define FEEDER_MAX_SWITCHES 512
#define FEEDER_MAX_SWITCHES_ON_BRANCH 2
#define FEEDER_MAX_ITERATIONS 1000
#define FEEDER_MAX_TIES 10

/* Bytes of the longest text that is accepted: the head, every bus, branch and switch that there is room for, and the supply, with their line feeds. */
#define FEEDER_LONGEST_TEXT (37 + FEEDER_MAX_BUSES * 23 + FEEDER_MAX_BRANCHES * 29 + FEEDER_MAX_SWITCHES * 13 + 7)

/* Records in bytes, for feeder_write_text: the frames of a text with a byte for two digits and no line feeds, one behind the other. A u16 has two bytes, a
 * double the eight of its bits, the most significant first.
 *
 *     01  buses, branches, switches (u16 each), base_mva (double), method (byte), max_iterations (u16)     the head, once
 *     02  id (u16), pd in MW (double)                                                                      each bus
 *     03  from, to (u16 each), r (double), status (byte)                                                   each branch
 *     04  id, branch position from 0 (u16 each), flags (byte)                                              each switch
 *     05  id of a bus (u16)                                                                                the supply, last, where it is named
 *
 * Their text is each record in digits with its line feed. A record has as many bytes as its kind byte says; where the kind is none of the five, or fewer bytes
 * are left, all that is left is one line. So a wrong record is refused as its line would be. FEEDER_LONGEST_RECORDS make the longest text. */
#define FEEDER_HEAD_BYTES 18
#define FEEDER_BUS_BYTES 11
#define FEEDER_BRANCH_BYTES 14
#define FEEDER_SWITCH_BYTES 6
#define FEEDER_SUPPLY_BYTES 3
#define FEEDER_LONGEST_RECORDS                                                                                                             \
    (FEEDER_HEAD_BYTES + FEEDER_MAX_BUSES * FEEDER_BUS_BYTES + FEEDER_MAX_BRANCHES * FEEDER_BRANCH_BYTES                                   \
     + FEEDER_MAX_SWITCHES * FEEDER_SWITCH_BYTES + FEEDER_SUPPLY_BYTES)

/* Bytes of an 81, an 84 and an 82 line; a single move of feeder_resume is an 82 line. An 86 line has 7 bytes and 4 for each switch that it moves: 15 where it closes
 * one and opens one, and FEEDER_PAIR_LENGTH (23) where it closes two and opens two. */
#define FEEDER_ANSWER_LENGTH 59
#define FEEDER_FORM_LENGTH 11
#define FEEDER_OPERATION_LENGTH 9
#define FEEDER_PAIR_HEAD_LENGTH 7
#define FEEDER_ID_LENGTH 4
#define FEEDER_PAIR_LENGTH (FEEDER_PAIR_HEAD_LENGTH + 2 * FEEDER_MAX_SWITCHES_ON_BRANCH * FEEDER_ID_LENGTH)
#define FEEDER_MOVE_LENGTH 9

/* Bytes of an 87 line, which feeder_repair_text writes. */
#define FEEDER_DROPPED_LENGTH 9

/* Bytes of out that are enough for every text and every state: for feeder_operations; for feeder_plan (3833), as a plan has fewer pairs than there are buses and moves
 * no switch twice; for either slice of feeder_resume (4608, a move for each switch); for feeder_answer_text (8511); for feeder_write_text (27436, the longest
 * accepted text); for feeder_repair_text (27436 too: a dropped line's 87 line is shorter than the line). FEEDER_MAX_SWITCHES are enough for feeder_base_state and
 * feeder_solve. */
#define FEEDER_OPERATIONS_LENGTH (FEEDER_MAX_SWITCHES * FEEDER_OPERATION_LENGTH)
#define FEEDER_PLAN_LENGTH ((FEEDER_MAX_BUSES - 1) * FEEDER_PAIR_HEAD_LENGTH + FEEDER_MAX_SWITCHES * FEEDER_ID_LENGTH)
#define FEEDER_MOVES_LENGTH (FEEDER_MAX_SWITCHES * FEEDER_MOVE_LENGTH)
#define FEEDER_TEXT_LENGTH (FEEDER_ANSWER_LENGTH + FEEDER_FORM_LENGTH + FEEDER_OPERATIONS_LENGTH + FEEDER_PLAN_LENGTH)
#define FEEDER_FRAMES_LENGTH FEEDER_LONGEST_TEXT
#define FEEDER_REPAIR_LENGTH FEEDER_LONGEST_TEXT

/* Bytes of stack that each call needs, the most of three buses and of 256: measured to 64 bytes on a stack that ends at a page which faults
 * (tests/interface/stack.c, which fails where a call needs more), on what include/build writes; tested, not proved. FEEDER_STACK is for a thread
 * that makes any of the calls: the greatest of them and a quarter, in whole pages. */
#define FEEDER_RADIALITY_STACK 171392
#define FEEDER_FORM_STACK 171392
#define FEEDER_LOSS_STACK 160576
#define FEEDER_PLAN_STACK 227840
#define FEEDER_RESUME_STACK 222656
#define FEEDER_ANSWER_TEXT_STACK 260416
#define FEEDER_BASE_STATE_STACK 148288
#define FEEDER_SOLVE_STACK 263232
#define FEEDER_OPERATIONS_STACK 163200
#define FEEDER_WRITE_TEXT_STACK 159872
#define FEEDER_REPAIR_TEXT_STACK 191872
#define FEEDER_STACK 331776

/* The refusals, as docs/INTERFACE.md has them. The place of 1 to 9, 14, 15 and 17 is the text's line, from 1: the first faulty line is answered, and of its numbers the lowest (2
 * where it is over 36 characters). The place of 10 and 11 is 0 for the present, first or only state and 1 for the wanted or second one; that of 12 is the
 * switch's id, the first in list order; that of 16 and of 13 is 0. A faulty text comes before 10, and then the order is 10, 11, 12, 16, 13. Records in bytes are
 * refused as their text is, so with its line: the head's is 1, the first bus's 2. They are never refused with 1: their lines are ended and have two digits for a
 * byte. */
enum feeder_refusal {
    FEEDER_BAD_CHARACTERS = 1,     /* an unended line, an odd number of digits, another character */
    FEEDER_BAD_LINE = 2,           /* a line of the wrong kind or length, missing or too many; any line over 36 characters */
    FEEDER_NO_MEANING = 3,         /* a method, status or flags byte without a meaning, or more than FEEDER_MAX_ITERATIONS */
    FEEDER_OVER_LIMIT = 4,         /* a count of the head over its limit */
    FEEDER_OUT_OF_RANGE = 5,       /* a float outside its range, or not finite */
    FEEDER_NOT_LISTED = 6,         /* a branch end that is not listed, or a branch position not below the count */
    FEEDER_ID_TWICE = 7,           /* a bus id twice among the buses, or a switch id twice among the switches */
    FEEDER_THIRD_SWITCH = 8,       /* a third switch on a branch */
    FEEDER_TOO_MANY_TIES = 9,      /* more than FEEDER_MAX_TIES normally open switches with method 02 */
    FEEDER_BAD_STATE = 10,         /* a state isn't one byte 0 or 1 for each switch */
    FEEDER_NOT_RADIAL = 11,        /* a plan's state isn't radial, or with a supply that of a loss */
    FEEDER_LOCKED = 12,            /* the plan would move a locked switch */
    FEEDER_NO_ROOM = 13,           /* out is shorter than the answer, or either slice of a resumed plan than its moves */
    FEEDER_SUPPLY_NOT_LISTED = 14, /* the supply is the id of no bus that is listed */
    FEEDER_BASE_NOT_RADIAL = 15,   /* a supply is named, and the base isn't radial */
    FEEDER_TOO_MANY_MOVES = 16,    /* more moves are said to be done than the plan has */
    FEEDER_OWN_LOOP = 17           /* a branch leads from a bus to itself; feeder_repair_text drops such branches from a stored text */
};

/* number 0: not refused, and value is what was asked for (place is 0). Else number is an enum feeder_refusal, place is its place, and value is 0. */
struct feeder_answer {
    uint8_t number;
    uint16_t place;
    uint64_t value;
};

/* What feeder_solve answers. number 0: not refused (place is 0). Else number is an enum feeder_refusal, place is its place, and the others are 0. */
struct feeder_solved {
    uint8_t number;
    uint16_t place;
    uint8_t radial;      /* 1 where the best state is radial, else 0 */
    uint8_t converged;   /* 1 or 0 */
    uint16_t iterations;
    double base_loss;    /* in MW */
    double best_loss;    /* in MW */
    double reduction;    /* of the base's loss, in percent; below 0 where the best state loses more */
};

/* A call that is lent out writes its bytes to the front of it; what is behind them stays. A refusal writes nothing. So it is with remaining and back. */

/* Is the state radial? value is 1 or 0. Refusals 1 to 10, 14, 15 and 17. */
struct feeder_answer feeder_radiality(const uint8_t *text, size_t text_length, const uint8_t *state, size_t state_length);

/* What the live branches of the state are: a tree, a loop, or islands and no loop. value is islands * 65536 + branch, to be taken apart so:
 *
 *     islands = value / 65536     the connected pieces minus one, beside a loop too; 0 for no buses
 *     branch  = value % 65536     the position, from 0, of the first live branch whose ends the live branches before it already join; 65535 where there is no loop
 *
 * value is FEEDER_TREE, no islands and no loop, exactly where feeder_radiality's is 1. Refusals 1 to 10, 14, 15 and 17. */
#define FEEDER_TREE 65535
struct feeder_answer feeder_form(const uint8_t *text, size_t text_length, const uint8_t *state, size_t state_length);

/* The loss of the state in MW: value is the bits of a double. Of a branch it counts the load on the side of its to bus, and the state need not be radial; where the text names
 * the supply it counts the load on the side away from it, and a state that isn't radial is 11. Refusals 1 to 11, 14, 15 and 17. */
struct feeder_answer feeder_loss(const uint8_t *text, size_t text_length, const uint8_t *state, size_t state_length);

/* The plan from the present state to the wanted one: value is the number of pairs. In out stands an 86 line for each pair: "86", how many switches it closes (2
 * digits), their ids (4 digits each), how many it opens (2), their ids, and a line feed. It closes every open switch of one branch and opens those of another that are
 * open in the wanted state, one or two of each, in the order of the text's 04 lines. Lines differ in length: the counts say where a line ends.
 *
 *     to carry out a line   close the closed ids from the first to the last, then open the opened ids from the first to the last
 *     to undo it            close the opened ids from the last to the first, then open the closed ids from the last to the first
 *
 * Lines are carried out from the first on, and undone from the last that was done. A run may stop or turn round between whole lines: there the feeder is radial. Who is stopped within a line goes on or back by feeder_resume.
 * Within a line no bus is cut off, and one loop is closed from its last closing to its first opening. No switch is in two lines. Refusals 1 to 15 and 17; 13 where out is
 * shorter than the lines together, 7 bytes a pair and 4 a moved switch. */
struct feeder_answer feeder_plan(const uint8_t *text, size_t text_length, const uint8_t *present, size_t present_length,
                                 const uint8_t *wanted, size_t wanted_length, uint8_t *out, size_t out_length);

/* The plan from the present state to the wanted one, cut off when count of its single moves were done: value is the number of moves that remain. Each switch is a
 * move of its own: of a pair first the closings, then the openings, each in the order of its line. The text and wanted are those of the plan, and present is the state
 * in which it BEGAN, the one that feeder_plan had, and not the one after the cut. In remaining stands an 82 line for each move that is left, in their order: carried
 * out, they finish the plan. In back stand count 82 lines, the moves that were done, inverted and the last one first: carried out, they go back to the present
 * state. A line is "82", switch id (4 digits), 00 to open or 01 to close, and a line feed; that is the opposite of a state's byte, which is 1 where a switch is open.
 * remaining and back overlap neither each other nor any other slice; FEEDER_MOVES_LENGTH bytes are enough for each. Refusals 1 to 17; where either slice is too
 * short, 13, and neither is written to. README says what a controller stores, and what it does first where the cut may have come between a move and the storing
 * of count. */
struct feeder_answer feeder_resume(const uint8_t *text, size_t text_length, const uint8_t *present, size_t present_length,
                                   const uint8_t *wanted, size_t wanted_length, uint64_t count, uint8_t *remaining, size_t remaining_length,
                                   uint8_t *back, size_t back_length);

/* What the program feeder prints for an accepted text: value is the number of bytes. In out stand the search's 81 line; its best state's 84 line, "84",
 * islands and branch as in feeder_form (4 digits each) and a line feed; an 82 line for each switch that stands otherwise than in the base; and, where the base is
 * radial, the plan's 86 lines. Refusals 1 to 9, 13 to 15 and 17. */
struct feeder_answer feeder_answer_text(const uint8_t *text, size_t text_length, uint8_t *out, size_t out_length);

/* The base, in which exactly the normally open switches are open: value is the number of switches. In out stands a byte for each. Refusals 1 to 9,
 * 13 to 15 and 17. */
struct feeder_answer feeder_base_state(const uint8_t *text, size_t text_length, uint8_t *out, size_t out_length);

/* The search that the text's head asks for. In out stands a byte for each switch: the best state. Refusals 1 to 9, 13 to 15 and 17. */
struct feeder_solved feeder_solve(const uint8_t *text, size_t text_length, uint8_t *out, size_t out_length);

/* The operations that lead from one state to another: value is their number. In out stands an 82 line for each, "82", switch id (4 digits), 00 to open or
 * 01 to close, and a line feed. They stand in the order of the switches, which is no order to switch in: that is the plan's. Refusals 1 to 10, 13 to 15
 * and 17. */
struct feeder_answer feeder_operations(const uint8_t *text, size_t text_length, const uint8_t *from, size_t from_length, const uint8_t *to,
                                       size_t to_length, uint8_t *out, size_t out_length);

/* The text of records in bytes: value is the number of its bytes. In out stands the text, for the other calls. Refusals 2 to 9, 13 to 15 and 17. */
struct feeder_answer feeder_write_text(const uint8_t *records, size_t records_length, uint8_t *out, size_t out_length);

/* The repair of a stored text, what the program repair prints for it: value is the number of bytes. Its branches from a bus to itself are dropped, in service or not,
 * with the switches on them; positions and the head's counts are made anew. In out stands the text that is left, which every call accepts, and behind it an 87 line for
 * each dropped line, in line order: "87", the line's number in the stored text (4 digits), 01 for a branch or 02 for a switch, and a line feed. The 87 lines are no part
 * of the text, which ends before the first of them: no line of a text begins with 8. A text without such branches comes out byte for byte, with no 87 line.
 *
 * Refusals 1 to 9 and 13 to 15, never 17. Their places are lines of the stored text, and 7, 8 and 9 count what would be dropped; 15 is judged of what is left. */
struct feeder_answer feeder_repair_text(const uint8_t *text, size_t text_length, uint8_t *out, size_t out_length);

#ifdef __cplusplus
}
#endif

#endif
