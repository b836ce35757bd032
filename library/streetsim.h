/* The engine of streetsim in the process of a program: a session behind a handle. What each call promises is proved (docs/PROOFS.md);
 * nothing checks that this header declares what the library has, nor that a caller keeps the rules below.
 *
 * What a caller owes
 * - A handle is all zeros before streetsim_open, and is never copied or written by the caller after.
 * - Each pointer is to memory that is there for the call and is initialised, outputs too; no two of a call overlap. A room of 0 bytes or rows is
 *   given by a pointer that is not null.
 * - One call at a time has a handle. It may go from thread to thread, by a lock, a thread's start or a join.
 * - malloc, realloc and free are of one allocator, as of the C library. No call from a signal handler, or from the forked child of a
 *   process with threads.
 * - The longest line takes 128 KiB of the stack of the thread that calls.
 *
 * Every command is a line, as docs/LINES.md of the repository has them: load, meter, signal, lane and the others go by streetsim_line.
 * What is asked most has a call of its own too. A step is a second, a cell 7.5 m, a speed cells a step.
 */
#ifndef STREETSIM_H
#define STREETSIM_H
#include <stdbool.h>
#include <stddef.h>
#include <stdint.h>
#ifdef __cplusplus
extern "C" {
#endif

struct streetsim_session {
    void *at;
    bool is_open;
};

/* What a call returns. The state after it is said beside each. */
enum {
    STREETSIM_DONE = 0,    /* done; what the call tells is written */
    STREETSIM_STARVED = 1, /* memory was refused: nothing was done, and the output before stays (a typed call may give OTHER instead) */
    STREETSIM_MISUSED = 2, /* no session is open (of streetsim_open: one is): nothing was done */
    STREETSIM_SHORT = 3,   /* served; too little room for a line or a list, which streetsim_reply gives; nothing is served twice */
    STREETSIM_UNTOLD = 4,  /* served; memory for the line of its reply was refused: streetsim_reply makes it */
    STREETSIM_OTHER = 5    /* of typed calls: the reply is another one, as a refusal, a fault or {"starved":true}; streetsim_reply gives its line.
                            * streetsim_line gives all these as its reply, by STREETSIM_DONE */
};

/* A session with nothing loaded. */
uint32_t streetsim_open(struct streetsim_session *session);

/* Closes a session and frees its memory; does nothing to a closed one. The handle may be opened again. */
void streetsim_close(struct streetsim_session *session);

/* Serves a line, given without its line feed, as the program serves it. The reply's line, with its line feed, goes to the start of room, its
 * length to bytes: 0 of a blank line. With STREETSIM_SHORT bytes is the length that is wanted. */
uint32_t streetsim_line(struct streetsim_session *session, const unsigned char *line, size_t line_bytes, unsigned char *room, size_t room_bytes, size_t *bytes);

/* The output of the last line or call that was served, however often it is asked for: the line of its reply. There is none after
 * STREETSIM_DONE of a typed call or a blank line: bytes is 0. STREETSIM_SHORT (bytes: the length that is wanted) and STREETSIM_UNTOLD
 * leave it to be asked for again. */
uint32_t streetsim_reply(struct streetsim_session *session, unsigned char *room, size_t room_bytes, size_t *bytes);

/* Makes steps, 0 to 10,000; clock: after them. */
uint32_t streetsim_advance(struct streetsim_session *session, uint64_t steps, uint64_t *clock);

struct streetsim_census {
    uint64_t admitted; /* all that ever entered */
    uint64_t arrived;
    uint64_t buffers; /* in the buffers behind stop lines */
    uint64_t cells;   /* on cells of lanes */
    uint64_t clock;
    uint64_t taken;   /* taken out */
    uint64_t waiting; /* to enter */
};

uint32_t streetsim_count(struct streetsim_session *session, struct streetsim_census *census);

enum { STREETSIM_CELL, STREETSIM_BUFFER, STREETSIM_WAITING, STREETSIM_ARRIVED, STREETSIM_TAKEN };

struct streetsim_vehicle {
    uint64_t state; /* as above; what a state does not have is 0 */
    uint64_t link;
    uint64_t lane;
    uint64_t cell;
    uint64_t speed; /* cells a step */
    uint64_t size;  /* cells */
    uint64_t step;  /* from which it may go on (buffer) or depart (waiting), of its arrival, or the clock when it was taken out */
};

/* Where a vehicle is; plan: the identifiers of the links that remain, the present one included; links: how many. */
uint32_t streetsim_vehicle(struct streetsim_session *session, uint64_t car, struct streetsim_vehicle *vehicle, uint64_t *plan, size_t plan_links, size_t *links);

/* Admits a vehicle. plan: identifiers of its links in order; lane: of the first; depart: the step from which it may enter; size: its
 * cells, 1 to 4; car: its number. */
uint32_t streetsim_enter(struct streetsim_session *session, const uint64_t *plan, size_t plan_links, uint64_t lane, uint64_t depart, uint64_t size, uint64_t *car);

struct streetsim_running {
    uint64_t start; /* the first step of the running period */
    uint64_t steps; /* that it has so far */
    uint64_t passes;   /* vehicles that passed */
    uint64_t speeds;   /* the sum of their speeds, cells a step */
    uint64_t occupied; /* steps with a vehicle on the cell */
};

struct streetsim_row {
    uint64_t start;
    uint64_t passes;
    uint64_t speeds;
    uint64_t occupied;
};

/* What a detector has noted: the running period, and the last full ones, the oldest first: 32 at most, count of them. */
uint32_t streetsim_read(struct streetsim_session *session, uint64_t meter, struct streetsim_running *running, struct streetsim_row *rows, size_t room, size_t *count);

#ifdef __cplusplus
}
#endif
#endif
