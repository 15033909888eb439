/*
 * Badgerdross: the store under a cabinet game, for C and C++. Link libbadgerdross.a. This header is the manual.
 *
 * The game owns two things and lends them to each call: the IMAGE, one buffer of non-volatile memory, and the STATE, a
 * struct badgerdross in ordinary memory. A round is begin, writes and a commit; after power was lost, mount gives the
 * state of the last commit.
 *
 *     struct badgerdross store;
 *     size_t length = badgerdross_image_length(16, 4, 64, 0);
 *     badgerdross_format(&store, image, length, 16, 4, 64, 0, BADGERDROSS_END);          once, on the assembly line
 *     badgerdross_mount(&store, image, length);                                          each time the machine starts
 *     badgerdross_begin(&store, 0);
 *     badgerdross_write(&store, image, length, 0, 3, 7, 0, reels, 64, BADGERDROSS_END);
 *     badgerdross_commit(&store, image, length, 0, BADGERDROSS_END);      the round takes effect, whole or not at all
 *     badgerdross_recall(3, 7, image, length, line, 64);                                 the recall screen
 *
 * The same round in one call, which is faster: the state is checked once.
 *
 *     uint64_t writes[] = {3, 7, 0, 64};                                       page, line, offset and length of each write
 *     size_t call;
 *     badgerdross_round(&store, image, length, 0, writes, 4, reels, 64, BADGERDROSS_CHECKPOINT | BADGERDROSS_FREE, &call);
 *
 * Every call answers BADGERDROSS_TAKEN (0) or the number of the first rule that it breaks, and has then changed nothing:
 * no byte of the image, no word of the state, no byte of a target, no number that it was to tell. (A round in one call
 * is several calls; below it says what it leaves.) No call relies on a check of yours: any numbers, any bytes and any
 * words may be handed in. What each call answers and leaves is proved of the exported function itself, on any state and
 * any bytes (crates/badgerdross); badgerdross_finish, the last thing here, is C and is not.
 *
 * The caller sees to it that a pointer is not null and has as many bytes behind it as the length says, that the image
 * and the state start at a multiple of 8, that the buffers of one call do not overlap, and that nothing else writes to
 * them meanwhile. There are no threads, no global data and no allocation: what a call is lent is the caller's again when
 * it returns. docs/C.md says what the memory must do.
 */
#ifndef BADGERDROSS_H
#define BADGERDROSS_H

#include <stddef.h>
#include <stdint.h>

#ifdef __cplusplus
extern "C" {
#endif

/* 1,000 times the major number, and the minor number. A program may hold the library that it was linked with to it. */
#define BADGERDROSS_VERSION 2000
size_t badgerdross_version(void);

/* The state. It is the game's to keep and to copy, and need not outlive a power cut; what stands in it is for the calls
 * alone. Any words are a state: one that breaks the rules is turned back (8). */
#define BADGERDROSS_WORDS 1280
struct badgerdross {
    uint64_t words[BADGERDROSS_WORDS];
};

/* The answers; none is 16. Each call lists those that it can give, in the order in which they are tested. */
enum badgerdross_answer {
    BADGERDROSS_TAKEN = 0,
    BADGERDROSS_IMAGE_TOO_SHORT = 1,       /* under 64 bytes */
    BADGERDROSS_UNKNOWN_LAYOUT = 2,        /* never formatted, or power was lost in a format: format */
    BADGERDROSS_SIZES_OUT_OF_RANGE = 3,
    BADGERDROSS_BUFFER_TOO_SHORT = 4,      /* shorter than the sizes need */
    BADGERDROSS_BAD_POSITIONS = 5,         /* the image's head or tail */
    BADGERDROSS_BAD_RECORD = 6,            /* a live record, or an entry in use */
    BADGERDROSS_BAD_SLOTS = 7,             /* a slot's words, a page in two slots, or a frame named twice or not at all */
    BADGERDROSS_BAD_STATE = 8,             /* the state breaks the rules */
    BADGERDROSS_OPERATION_PENDING = 9,     /* step, run or finish it first */
    BADGERDROSS_NOTHING_PENDING = 10,
    BADGERDROSS_BAD_ARGUMENT = 11,         /* writer over 3, no such page, line over 63, bytes outside the line, .. */
    BADGERDROSS_WRITER_OPEN = 12,
    BADGERDROSS_WRITER_NOT_OPEN = 13,
    BADGERDROSS_LINE_HELD = 14,            /* by another writer */
    BADGERDROSS_NO_FREE_SLOT = 15,         /* consolidate a page, or free a slot, and write again */
    BADGERDROSS_PAGE_WITHOUT_SLOT = 17,
    BADGERDROSS_PAGE_HELD = 18,            /* a writer holds a line of it */
    BADGERDROSS_JOURNAL_FULL = 19,         /* checkpoint, and try again */
    BADGERDROSS_UNKNOWN_EVENT = 20,
    BADGERDROSS_AMOUNT_OUT_OF_RANGE = 21,  /* or credit would be */
    BADGERDROSS_NO_SLOT_TO_FREE = 22,
    BADGERDROSS_TRANSACTION_PREPARED = 23,
    BADGERDROSS_WRITER_NOT_PREPARED = 24,
    BADGERDROSS_BAD_TABLE_LINE = 25,
    BADGERDROSS_MODULUS_OUT_OF_RANGE = 26, /* 100 to 1,000,000,000,000 */
    BADGERDROSS_METER_NOT_BELOW = 27,      /* a stored meter and its new modulus */
    BADGERDROSS_NO_WIDE_ROUNDS = 28,       /* the image was formatted with no entries */
    BADGERDROSS_OTHER_OPEN = 29,           /* a wide round is alone while it lasts */
    BADGERDROSS_ENTRIES_USED = 30
};

/* How far a call takes the operation that it asks for. What is left is pending, and is made by step, run or finish. */
enum badgerdross_until {
    BADGERDROSS_ASKED = 0, /* not at all: for finish, step and run */
    BADGERDROSS_FENCE = 1, /* up to the first store that decides */
    BADGERDROSS_END = 2    /* to its end: for memory that keeps executed stores in their order */
};

/* ---- an image. Sizes: 1 to 1,024 pages of 64 lines of 64 bytes; 1 to 16 slots, the pages with uncommitted or
 * unconsolidated lines; journal places, from as many as slots to 256; and 0 to 64 entries, the lines of a wide round. */

/* How many bytes an image of these sizes has; 0 where they are out of range. */
size_t badgerdross_image_length(size_t pages, size_t slots, size_t places, size_t entries);

/* Lays a fresh store, all zeros, over the buffer. A cut inside it leaves no image (2). Answers: 3 4. */
size_t badgerdross_format(struct badgerdross *store, uint8_t *image, size_t length, size_t pages, size_t slots,
                          size_t places, size_t entries, size_t until);

/* The state of the last commit; reads only. After a wide round was cut in its commit its copying is pending: run or
 * finish it. Answers: 1 2 3 4 5 6 7. */
size_t badgerdross_mount(struct badgerdross *store, const uint8_t *image, size_t length);

/* ---- a round, by one of four writers, 0 to 3 */

/* Opens the writer. Answers: 8 9 11 29 12. */
size_t badgerdross_begin(struct badgerdross *store, size_t writer);

/* The same for a round over more pages than there are slots: no other writer is open while it lasts.
 * Answers: 8 9 11 28 29. */
size_t badgerdross_begin_wide(struct badgerdross *store, size_t writer);

/* Puts data into a line from offset on. It shows in this writer's reads at once, and elsewhere from the commit on.
 * Answers: 8 4 9 11 13 23 30 14 15. */
size_t badgerdross_write(struct badgerdross *store, uint8_t *image, size_t length, size_t writer, size_t page,
                         size_t line, size_t offset, const uint8_t *data, size_t data_length, size_t until);

/* The 64 bytes of a line as the writer sees it, into the target's start. Answers: 8 4 9 11. */
size_t badgerdross_read(const struct badgerdross *store, const uint8_t *image, size_t length, size_t writer,
                        size_t page, size_t line, uint8_t *target, size_t target_length);

/* The round takes effect, and the writer is closed. Answers: 8 4 9 11 13 23 19. */
size_t badgerdross_commit(struct badgerdross *store, uint8_t *image, size_t length, size_t writer, size_t until);

/* Drops the round, and closes the writer. Answers: 8 9 11 13 23. */
size_t badgerdross_abort(struct badgerdross *store, size_t writer);

/* A commit in two parts, for a ticket printed in between. After prepare only confirm's one store is left; withdraw lets
 * the round go on. Answers of prepare: 8 4 9 11 29 13 23 19. Answers of confirm and withdraw: 8 4 9 11 24. */
size_t badgerdross_prepare(struct badgerdross *store, uint8_t *image, size_t length, size_t writer, size_t until);
size_t badgerdross_confirm(struct badgerdross *store, uint8_t *image, size_t length, size_t writer, size_t until);
size_t badgerdross_withdraw(struct badgerdross *store, const uint8_t *image, size_t length, size_t writer);

/* ---- a round in one call */

/* What a round does for want of room, else it is refused. */
enum badgerdross_room {
    BADGERDROSS_CHECKPOINT = 1, /* where the journal is full (19), a checkpoint */
    BADGERDROSS_FREE = 2        /* where no slot is free (15), it frees one */
};

/* Begin, the writes and a commit, each to its end. Each write is four numbers of writes, page, line, offset and length, so that
 * writes_length is four times their number; their bytes stand in data one after the other. Stops at the first call that is refused,
 * answers its number, and drops what was written: the writer is closed again, and reads and mounts show nothing of the round. *call tells
 * which call it was: 0 begin, then the writes from 1 on, then the commit, which it is of a round that is taken. A slot that cannot be
 * freed (22, or 19 without BADGERDROSS_CHECKPOINT) is told as the write's. */
size_t badgerdross_round(struct badgerdross *store, uint8_t *image, size_t length, size_t writer, const uint64_t *writes,
                         size_t writes_length, const uint8_t *data, size_t data_length, size_t room, size_t *call);

/* ---- the recall screen: the committed 64 bytes of a line, from an image alone. Answers: 1 2 3 4 5 6 7 11. */

size_t badgerdross_recall(size_t page, size_t line, const uint8_t *image, size_t length, uint8_t *target,
                          size_t target_length);

/* The same by its first name, in librecalling.a, which has nothing else. */
size_t recall(size_t page, size_t line, const uint8_t *image, size_t length, uint8_t *target, size_t target_length);

/* ---- room: for slots (after 15) and for the journal (after 19) */

/* Gives a page's slot back. Answers: 8 4 9 11 23 17 18 19. */
size_t badgerdross_consolidate(struct badgerdross *store, uint8_t *image, size_t length, size_t page, size_t until);

/* The same of the page whose slot is freed by the fewest copies. Answers: 8 4 9 23 22 19. */
size_t badgerdross_free_slot(struct badgerdross *store, uint8_t *image, size_t length, size_t until);

/* Empties the journal. Answers: 8 4 9. */
size_t badgerdross_checkpoint(struct badgerdross *store, uint8_t *image, size_t length, size_t until);

/* ---- 24 meters on page 0, each with its modulus: 0 is credit, 1 cash in, 2 cash out, 3 bet, 4 won, 5 to 23 counts */

enum badgerdross_kind {
    BADGERDROSS_CASH_IN = 1,
    BADGERDROSS_CASH_OUT = 2,
    BADGERDROSS_BET = 3,
    BADGERDROSS_WON = 4,
    BADGERDROSS_COUNT = 5 /* of one of meters 5 to 23; the other kinds do not look at the meter */
};

/* Moves credit and the kind's meter, or one count, in a round of its own by writer 1, who must be closed. The moduli, 24
 * of them, are the game's to keep. Answers: 8 4 9 29 20 26 12 23 14 15 21 19. */
size_t badgerdross_event(struct badgerdross *store, uint8_t *image, size_t length, size_t kind, size_t meter,
                         uint64_t amount, const uint64_t *moduli, size_t moduli_length, size_t until);

/* A venue's own moduli, from 24 lines `meter,modulus`. Answers: 8 4 9 25 26 27. */
size_t badgerdross_load(const struct badgerdross *store, const uint8_t *image, size_t length, const uint8_t *text,
                        size_t text_length, uint64_t moduli[24]);

/* ---- the pending operation, store by store. Each store is one aligned word of 8 bytes. */

/* Makes one store. Answers: 8 4 10. */
size_t badgerdross_step(struct badgerdross *store, uint8_t *image, size_t length);

/* Makes at most so many stores, and tells how many it made. Answers: 8 4 10. */
size_t badgerdross_run(struct badgerdross *store, uint8_t *image, size_t length, size_t stores, size_t *made);

/* A store decides if a mount goes by what it changes. On memory behind a cache it stands alone between two fences; all
 * others may reach the memory in any order in between. */
struct badgerdross_next {
    size_t word;    /* the next store goes to the 8 bytes at image + 8 * word */
    size_t words;   /* so many stores, from that one on, go to the words from there on, one behind the other */
    size_t decides; /* 1 if it decides, else 0 */
    size_t before;  /* how many come before the next one that decides */
    size_t left;    /* how many the operation still needs */
};

/* Tells of the next store; reads only. Answers: 8 4 10. */
size_t badgerdross_next_store(const struct badgerdross *store, const uint8_t *image, size_t length,
                              struct badgerdross_next *next);

/* ---- the service screen: a refusal in words */

enum badgerdross_call {
    BADGERDROSS_CALL_FORMAT = 0,
    BADGERDROSS_CALL_MOUNT = 1,
    BADGERDROSS_CALL_RECALL = 2,
    BADGERDROSS_CALL_BEGIN = 3,
    BADGERDROSS_CALL_ABORT = 4,
    BADGERDROSS_CALL_WRITE = 5,
    BADGERDROSS_CALL_COMMIT = 6,
    BADGERDROSS_CALL_CONSOLIDATE = 7,
    BADGERDROSS_CALL_CHECKPOINT = 8,
    BADGERDROSS_CALL_READ = 9,
    BADGERDROSS_CALL_STEP = 10,
    BADGERDROSS_CALL_RUN = 11,
    BADGERDROSS_CALL_FREE_SLOT = 12,
    BADGERDROSS_CALL_EVENT = 13,
    BADGERDROSS_CALL_PREPARE = 14,
    BADGERDROSS_CALL_CONFIRM = 15,
    BADGERDROSS_CALL_WITHDRAW = 16,
    BADGERDROSS_CALL_LOAD = 17,
    BADGERDROSS_CALL_BEGIN_WIDE = 18
};

/* A refused call, its answer and what it was given. What the call does not take may be anything. */
struct badgerdross_refusal {
    size_t call;
    size_t number;
    size_t writer, page, line;
    size_t kind, meter; /* of an event */
    size_t holder;      /* for 14 and 18 the lowest writer in its way: told by reading, found in the state by sentence */
};

/* Composes the refusal's sentence, at most 200 printable bytes and no 0 behind them, at the target's start. The state is
 * the one that the call was refused on. A target under 200 bytes, or a number that the call cannot give: 11. */
size_t badgerdross_sentence(const struct badgerdross *store, const struct badgerdross_refusal *refusal,
                            uint8_t *target, size_t target_length, size_t *sentence_length);

/* Reads a sentence back; any other text is 11. */
size_t badgerdross_reading(const uint8_t *text, size_t text_length, struct badgerdross_refusal *refusal);

/* ---- memory behind a cache. What follows is glue: C over next_store and run, tested and not proved. */

/* Of the host. With bytes: starts writing back the cache lines that these bytes lie in (clwb of each), or sends them.
 * With none (and no address): returns when all that it was called with is in the memory (sfence). */
typedef void badgerdross_persist(void *context, const uint8_t *from, size_t bytes);

/* After a call that ASKED, and after a mount: makes all stores that are left, with persist for what each touched and a
 * fence right before and right after each that decides. Nothing pending is taken too. Answers: 8 4. */
static inline size_t badgerdross_finish(struct badgerdross *store, uint8_t *image, size_t length,
                                        badgerdross_persist *persist, void *context)
{
    struct badgerdross_next next;
    size_t made;
    do {
        size_t answer = badgerdross_next_store(store, image, length, &next);
        if (answer != BADGERDROSS_TAKEN)
            return answer == BADGERDROSS_NOTHING_PENDING ? (size_t)BADGERDROSS_TAKEN : answer;
        size_t stores = next.decides ? 1 : next.words < next.before ? next.words : next.before;
        if (next.decides)
            persist(context, NULL, 0);
        answer = badgerdross_run(store, image, length, stores, &made);
        if (answer != BADGERDROSS_TAKEN)
            return answer;
        persist(context, image + 8 * next.word, 8 * made);
        if (next.decides)
            persist(context, NULL, 0);
    } while (made < next.left);
    return BADGERDROSS_TAKEN;
}

#ifdef __cplusplus
}
#endif

#endif
