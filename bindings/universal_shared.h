/* Small objects that operating-system processes share, and that no dead one holds up. A process may be killed at any
 * instruction: the calls of the others return as before, and whoever takes its seat over is told how many calls were
 * made, and what the last was answered. So no call is made twice, or half; one that hadn't begun is made by nobody, until
 * who claims the seat makes it.
 *
 * A segment is a file in memory, with one object and n seats. Each process maps it at the address that it names. A seat
 * has one owner at a time, a thread of some process, which claims it; where the owner dies, however it dies, the seat
 * can be claimed anew. Linux on x86-64 alone. The objects are those of universal.h, with the macros for their calls.
 *
 *     universal_shared_kind kind = {.object = UNIVERSAL_SHARED_QUEUE, .capacity = 100};
 *     universal_shared_segment *jobs = NULL;
 *     universal_shared_seat *seat = NULL;
 *     universal_shared_last last;
 *     universal_shared_create_named("jobs", &kind, 8, &jobs); // once; elsewhere universal_shared_attach_named
 *     universal_shared_claim(jobs, -1, &seat, &last);         // any seat without a living owner
 *     universal_shared_apply(seat, (uint64_t[])UNIVERSAL_QUEUE_PUT(7), 1, &reply, 1, &version);
 *
 * A call ends within a number of the caller's own steps, whatever the others do. It takes no lock, no memory and no system
 * call, as is seen from its code. All else here may take a lock of its process, which a fork waits for. The object's code is proved in
 * crates/universal_c. The code of this file isn't: bindings/universal_shared.c is tested.
 *
 * What a caller owes, beside what universal.h says of pointers and signal handlers:
 *   - A seat is in one call at a time. It may go from thread to thread, by a start, a join or a lock.
 *   - A seat that was released, and a segment that was detached, are not used again.
 *   - No process closes a file that it doesn't know, as closefrom(3) does, while it has a seat: the seat would count as
 *     given up.
 *   - Nobody else writes into the file, or makes it shorter. Whoever can is trusted as the process itself is.
 * A forked child has the segments of its parent, and none of its seats: it claims its own. A call by a seat that was
 * its parent's answers UNIVERSAL_WRONG_HANDLE, and the child releases such a seat only to get its memory back. */
#ifndef UNIVERSAL_SHARED_H
#define UNIVERSAL_SHARED_H

#include "universal.h"

#ifdef __cplusplus
extern "C" {
#endif

/* What a call answers, beside the statuses of universal.h. */
typedef enum universal_shared_status {
    UNIVERSAL_SHARED_NOT_A_SEGMENT = 20, /* the file is no segment, or not a whole one */
    UNIVERSAL_SHARED_OTHER_LIBRARY = 21, /* it was made by another version or build of the library */
    UNIVERSAL_SHARED_OTHER_OBJECT = 22,  /* it has another kind or another n */
    UNIVERSAL_SHARED_ADDRESS = 23,       /* its address is taken in this process */
    UNIVERSAL_SHARED_SYSTEM = 24,        /* a call of the system failed: errno says why */
    UNIVERSAL_SHARED_TAKEN = 25,         /* the seat has a living owner */
    UNIVERSAL_SHARED_BAD_KIND = 26,      /* no object has this number */
    UNIVERSAL_SHARED_NOT_EMPTY = 27      /* the file isn't an empty one in memory */
} universal_shared_status;

/* What a status says, in words. The text stays for good. */
static inline const char *universal_shared_strerror(uint32_t status) {
    switch (status) {
    case UNIVERSAL_SHARED_NOT_A_SEGMENT: return "the file is no segment, or not a whole one";
    case UNIVERSAL_SHARED_OTHER_LIBRARY: return "the segment was made by another version or build of the library";
    case UNIVERSAL_SHARED_OTHER_OBJECT: return "the segment has another kind or another number of seats";
    case UNIVERSAL_SHARED_ADDRESS: return "the segment's address is taken in this process";
    case UNIVERSAL_SHARED_SYSTEM: return "a call of the system failed";
    case UNIVERSAL_SHARED_TAKEN: return "the seat has a living owner";
    case UNIVERSAL_SHARED_BAD_KIND: return "no object has this number";
    case UNIVERSAL_SHARED_NOT_EMPTY: return "the file isn't an empty one in memory";
    default: return universal_strerror(status);
    }
}

/* The objects, as the functions universal_open_.. of universal.h open them. */
typedef enum universal_shared_object {
    UNIVERSAL_SHARED_COUNTER = 1,
    UNIVERSAL_SHARED_REGISTER64 = 2,
    UNIVERSAL_SHARED_COUNTERS = 3,
    UNIVERSAL_SHARED_QUEUE = 4,
    UNIVERSAL_SHARED_STACK = 5,
    UNIVERSAL_SHARED_MAP = 6,
    UNIVERSAL_SHARED_BOOK = 7,
    UNIVERSAL_SHARED_MACHINE = 8,
    UNIVERSAL_SHARED_PROGRAM = 9
} universal_shared_object;

/* How many words an invocation and a reply have at most. */
enum { UNIVERSAL_SHARED_ASKED = 4, UNIVERSAL_SHARED_ANSWERED = 2 };

/* An object. All who share it say the same. */
typedef struct universal_shared_kind {
    uint32_t object;              /* a universal_shared_object */
    uint32_t capacity;            /* of a queue, a stack or a map; of counters how many; not looked at of others */
    uint32_t states, invocations; /* of a machine alone, as universal_open_small_machine takes it: */
    const uint32_t *next, *reply; /* tables of states * invocations entries each, which are copied */
    /* the rest is of a program alone, as universal_open_program takes it, and copied: `count` instructions, `words` words of a state,
     * and how many words an invocation and a reply have. UNIVERSAL_BAD_CAPACITY also where these are more than 4 and 2 */
    const universal_instruction *code;
    size_t count;
    const uint64_t *start;
    size_t words;
    uint64_t invocation, answer;
} universal_shared_kind;

/* A segment in this process. */
typedef struct universal_shared_segment universal_shared_segment;

/* A seat that this process has claimed. */
typedef struct universal_shared_seat universal_shared_seat;

/* What became of a seat before. */
enum {
    UNIVERSAL_SHARED_NEW = 0,      /* it had no owner yet */
    UNIVERSAL_SHARED_RELEASED = 1, /* its owner released it */
    UNIVERSAL_SHARED_DIED = 2      /* its owner died */
};

/* What who claims a seat is told of the calls that its owners made. A call is made when it has taken effect and its
 * reply stands here. A call that its owner died in counts as made where it had begun: the claim ends it. */
typedef struct universal_shared_last {
    uint64_t process;       /* which seat it is, from 0 to n - 1 */
    uint64_t was;           /* UNIVERSAL_SHARED_NEW, _RELEASED or _DIED */
    uint64_t made;          /* how many calls were made */
    uint64_t ended;         /* 1: this claim ended the last of them, whose reply nobody was told. 0 says nothing */
    uint64_t version;       /* a version that the last call is in; 0 where none was made */
    uint64_t invocation[UNIVERSAL_SHARED_ASKED]; /* the words of the last call */
    uint64_t reply[UNIVERSAL_SHARED_ANSWERED];   /* and of its reply */
    uint64_t is_next;       /* 1: one more call was asked for, and hadn't begun: it has no effect */
    uint64_t next[UNIVERSAL_SHARED_ASKED]; /* its words */
} universal_shared_last;

/* How many bytes a segment of this kind has, for n seats.
 *
 * UNIVERSAL_SHARED_BAD_KIND; UNIVERSAL_SHARED_ADDRESS or UNIVERSAL_SHARED_SYSTEM, since it is made for a trial;
 * UNIVERSAL_BAD_CAPACITY of a program whose invocation has more than 4 words, or its reply more than 2; the statuses of the
 * object's universal_open_... In this order. After each but UNIVERSAL_DONE *bytes is as it was. */
uint32_t universal_shared_bytes(const universal_shared_kind *kind, uint64_t n, uint64_t *bytes);

/* Makes a segment in an empty file in memory (memfd_create, or below /dev/shm), open for reading and writing, and
 * attaches it. All its memory is taken at once. The descriptor stays the caller's, who may close it.
 *
 * UNIVERSAL_SHARED_NOT_EMPTY; then as universal_shared_bytes. After each but UNIVERSAL_DONE *segment is as it was, and
 * the file is no segment. */
uint32_t universal_shared_create(int fd, const universal_shared_kind *kind, uint64_t n,
                                 universal_shared_segment **segment);

/* Attaches the segment of a file, which is open for reading and writing. A process can attach it several times, and its
 * forked child too: it is mapped once. The descriptor stays the caller's.
 *
 * UNIVERSAL_SHARED_NOT_A_SEGMENT, where the file isn't in memory, or is too short, or doesn't begin as one;
 * UNIVERSAL_SHARED_OTHER_LIBRARY; UNIVERSAL_SHARED_NOT_A_SEGMENT, where a bit of its head has changed or its length
 * has; UNIVERSAL_SHARED_OTHER_OBJECT; UNIVERSAL_SHARED_ADDRESS. In this order; UNIVERSAL_SHARED_SYSTEM and
 * UNIVERSAL_MEMORY where the system or memory refuses. After each but UNIVERSAL_DONE *segment is as it was, and nothing
 * is mapped that wasn't before. */
uint32_t universal_shared_attach(int fd, const universal_shared_kind *kind, uint64_t n,
                                 universal_shared_segment **segment);

/* The same by a name: /dev/shm/universal.NAME, or a path where it has a slash. A segment gets its name whole, or not at
 * all; with no name (NULL) it has none, and forked children alone can share it. The statuses are the same:
 * UNIVERSAL_SHARED_SYSTEM with EEXIST where the name is taken, ENOENT where there is none, ENAMETOOLONG where it is too
 * long. */
uint32_t universal_shared_create_named(const char *name, const universal_shared_kind *kind, uint64_t n,
                                       universal_shared_segment **segment);
uint32_t universal_shared_attach_named(const char *name, const universal_shared_kind *kind, uint64_t n,
                                       universal_shared_segment **segment);

/* Takes the name away. Who has the segment keeps it, and its memory goes with the last. UNIVERSAL_SHARED_SYSTEM. */
uint32_t universal_shared_unlink(const char *name);

/* Lets a segment go. Seats that were claimed go on; it is unmapped with the last of them. */
void universal_shared_detach(universal_shared_segment *segment);

/* Claims the seat of this process number, or with -1 the first that has no living owner. It never waits for an owner.
 * Where the last owner died in a call that had begun, that call is ended first. A claim whose process is killed is as
 * if it had not been: the next one does the same.
 *
 * UNIVERSAL_SHARED_TAKEN: the seat has a living owner. UNIVERSAL_NO_SEAT: all have one, or there is no such seat.
 * UNIVERSAL_MEMORY. UNIVERSAL_SHARED_SYSTEM. After each but UNIVERSAL_DONE *seat and *last are as they were. */
uint32_t universal_shared_claim(universal_shared_segment *segment, int64_t process, universal_shared_seat **seat,
                                universal_shared_last *last);

/* A call, as universal_small_apply. What is asked for is written down before the call, and what was answered after it,
 * in the segment, for who claims the seat next. *version is greater than each that this owner has had.
 *
 * UNIVERSAL_WRONG_HANDLE: the seat was claimed by the process that this one was forked from. UNIVERSAL_BAD_WIDTH: the
 * invocation or the reply hasn't as many words as those of the object. UNIVERSAL_SPENT: the seat has made 2^50 calls. In
 * this order; after each no call was made, and *reply and *version are as they were. */
uint32_t universal_shared_apply(universal_shared_seat *seat, const uint64_t *invocation, size_t invocation_count,
                                uint64_t *reply, size_t reply_count, uint64_t *version);

/* How many calls the seat has made, by all its owners. */
uint64_t universal_shared_made(const universal_shared_seat *seat);

/* Gives a seat back, between two calls. */
void universal_shared_release(universal_shared_seat *seat);

#ifdef __cplusplus
}
#endif
#endif
