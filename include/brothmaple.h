/*
 * Brothmaple: the calls of the proved library, for C and C++ on x86-64.
 *
 * A model and an estimate are images of 512-byte blocks; a state is 9,112 words of 32 bits. Each call
 * answers one number of 64 bits:
 *
 *     bits  0 to  7    tag: which sort of answer it is (enum bm_answer_tag)
 *     bits  8 to 15    number: of the broken clause (1 to 9), or of the refusal (1 to 20)
 *     bits 16 to 31    first place
 *     bits 32 to 47    second place
 *     bits 48 to 55    name: of a broken clause, the name that is missing; else zero
 *     bits 56 to 63    zero
 *
 * bm_tag, bm_number, bm_first, bm_second and bm_name take them apart. An answer of 0 says that nothing is
 * refused and nothing is broken; of bm_copy_refused_block alone, that there is no block to copy. The places:
 *
 *     refusals 1 to 5       the block, and 0 (where the length as a whole is wrong: 0 and 0)
 *     refusals 6 to 9       the box, and its record: a site for 6, a line for 7, 8 and 9
 *     refusals 10 to 20     0 and 0
 *     a broken clause       the box (0 for clause 1), and the name, site or line
 *
 * What a caller owes. The proofs assume it, and no call tests it:
 *
 *   - A pointer is not null, also where the length beside it is 0, and is valid for that many elements.
 *   - Words (uint32_t) and moves (struct bm_move) are aligned to 4 bytes; bytes stand anywhere.
 *   - A buffer that a call writes shares no byte with another buffer of that call. Two buffers that it
 *     only reads may overlap.
 *   - While a call runs, no other thread writes a buffer that it reads, or reads or writes one that it
 *     writes.
 *
 * What a caller gets. Any bytes, words and moves whatever may stand in the buffers, of any length. A call
 * reads and writes the buffers that it is given and nothing else: it allocates nothing, keeps no pointer,
 * and has no variables of its own. Calls on different buffers may be made from many threads at once.
 * What each call answers and writes is proved: the contracts stand in crates/capi/src/lib.rt.
 */
#ifndef BROTHMAPLE_H
#define BROTHMAPLE_H

#include <assert.h>
#include <stddef.h>
#include <stdint.h>

#ifdef __cplusplus
extern "C" {
#endif

/* Bytes of a block; the most bytes of a model and of an estimate. */
#define BM_BLOCK_BYTES 512
#define BM_MODEL_BYTES 20992
#define BM_ESTIMATE_BYTES 8704

/* Words of a state: 8 box records. Words of a box record, of a site and of a thread in it. */
#define BM_STATE_WORDS 9112
#define BM_RECORD_WORDS 1139
#define BM_SITE_WORDS 10
#define BM_THREAD_WORDS 61

/* Which sort of answer it is. */
enum bm_answer_tag {
    BM_TAG_NONE = 0,     /* nothing refused, nothing broken; of bm_copy_refused_block: bytes copied */
    BM_TAG_CLAUSE = 1,   /* the estimate breaks a clause: its number, box, record, and the missing name */
    BM_TAG_MODEL = 2,    /* the model is refused (1 to 9); of bm_refused_block: a part of the model */
    BM_TAG_ESTIMATE = 3, /* the estimate is refused (1 to 5); of bm_refused_block: a part of the estimate */
    BM_TAG_YES = 4,      /* the box is shut off */
    BM_TAG_NO = 5,       /* the box is not shut off */
    BM_TAG_CALL = 6,     /* the call is refused (10 to 20), or the model has no such box (12) */
    BM_TAG_NO_ROOM = 7   /* the lent buffer is too short for the block */
};

/* Why something is refused. */
enum bm_refusal {
    BM_REFUSAL_LENGTH = 1,      /* an image's length is wrong, or a block is missing */
    BM_REFUSAL_CHECK = 2,       /* a block's check differs: its bytes are damaged */
    BM_REFUSAL_HEADING = 3,     /* a block is not the one that the order asks for, or is left over */
    BM_REFUSAL_COUNT = 4,       /* a count, or a kind of name, beyond its limits */
    BM_REFUSAL_STRAY = 5,       /* something past the counts is not zero */
    BM_REFUSAL_SITE = 6,        /* a site's subject, byte or type is wrong */
    BM_REFUSAL_LINE = 7,        /* a line's operation, names or type are wrong */
    BM_REFUSAL_TREE = 8,        /* the lines of a box are no tree */
    BM_REFUSAL_REACH = 9,       /* a name is used with no binder above it, or is bound twice */
    BM_REFUSAL_ROOM = 10,       /* the state is not 9,112 words, or there is not one answer a move */
    BM_REFUSAL_SPOILT = 11,     /* the state breaks the state rules */
    BM_REFUSAL_NOBODY = 12,     /* no such kind of move, box or thread */
    BM_REFUSAL_SELF = 13,       /* intra with one thread twice, inter with one box twice */
    BM_REFUSAL_WRONG_LINE = 14, /* a thread is not at the line that the move needs */
    BM_REFUSAL_CHANNEL = 15,    /* intra: the channels differ */
    BM_REFUSAL_NO_SITE = 16,    /* the name is not a site of the box, shown or hidden as the move needs */
    BM_REFUSAL_UNFIT = 17,      /* inter: the types of the two sites share no held name */
    BM_REFUSAL_PRIVATE = 18,    /* inter: the name sent is restricted */
    BM_REFUSAL_FULL = 19,       /* the box has 16 threads or 16 sites already */
    BM_REFUSAL_SPENT = 20       /* the box has used its last stamp */
};

/* The kinds of moves. Those that use two threads are noted; the others use the first thread alone. */
enum bm_move_kind {
    BM_MOVE_DROP = 1,   /* a thread at nil is removed */
    BM_MOVE_SPREAD = 2, /* a parallel line becomes two threads */
    BM_MOVE_NEW = 3,    /* a restricted name is made */
    BM_MOVE_COPY = 4,   /* a replication gives one more copy */
    BM_MOVE_EXPOSE = 5, /* a site is added */
    BM_MOVE_HIDE = 6,   /* a shown site is hidden */
    BM_MOVE_UNHIDE = 7, /* a hidden site is shown */
    BM_MOVE_INTRA = 8,  /* in one box: the first thread receives what the second sends */
    BM_MOVE_INTER = 9   /* between boxes: the first box's thread receives what the second box's sends */
};

/* A move. Numbers that its kind does not use are ignored; any numbers may stand in it. */
struct bm_move {
    uint32_t kind; /* enum bm_move_kind */
    uint32_t box;
    uint32_t thread;
    uint32_t box2;    /* used by inter */
    uint32_t thread2; /* used by intra and inter */
};

static_assert(sizeof(struct bm_move) == 20, "a move is five words of 32 bits");
static_assert(sizeof(size_t) == 8, "lengths are 64 bits");

/*
 * Reads a model: are its blocks and records in order?
 * Answers 0, or BM_TAG_MODEL with the first refusal (1 to 9) and its places. Writes nothing.
 */
uint64_t bm_read_model(const uint8_t *model, size_t model_bytes);

/*
 * Reads a model, then an estimate for it; tries no clause.
 * Answers 0, or BM_TAG_MODEL (1 to 9) or BM_TAG_ESTIMATE (1 to 5) with the first refusal and its places.
 * Writes nothing.
 */
uint64_t bm_read_estimate(const uint8_t *model, size_t model_bytes,
                          const uint8_t *estimate, size_t estimate_bytes);

/*
 * Checks an estimate: does it cover all that the model can do?
 * Answers 0 where it is accepted; BM_TAG_CLAUSE with the first clause that it breaks, the box, the name
 * (clause 1), site (clause 2) or line, and the name that is missing: the lowest that the first set short
 * lacks, in the order in which the clause asks for its sets; BM_TAG_MODEL or BM_TAG_ESTIMATE with the first
 * refusal and its places. Writes nothing.
 */
uint64_t bm_check(const uint8_t *model, size_t model_bytes,
                  const uint8_t *estimate, size_t estimate_bytes);

/*
 * Asks whether a box is shut off: no other box has a shown site whose type shares a name with one of its
 * own, by the estimate. No inter move that names such a box is ever made from the start.
 * Answers as bm_check does where the estimate is not accepted; else BM_TAG_CALL with 12 where the model
 * has no such box; else BM_TAG_YES or BM_TAG_NO. Never answers 0. Writes nothing.
 */
uint64_t bm_shut_off(const uint8_t *model, size_t model_bytes,
                     const uint8_t *estimate, size_t estimate_bytes, uint32_t box);

/*
 * Tells where the refused block stands, where bm_check refuses with 2 to 5.
 * Answers BM_TAG_MODEL or BM_TAG_ESTIMATE, the image that it is a part of; the number is the refusal's, the
 * first place is the block, and the second is how many bytes it has, 512. bm_part_offset and
 * bm_part_length give the part. Where there is no such block it answers an empty part of the model:
 * BM_TAG_MODEL, number 0, block 0, and 0 bytes. Writes nothing.
 */
uint64_t bm_refused_block(const uint8_t *model, size_t model_bytes,
                          const uint8_t *estimate, size_t estimate_bytes);

/*
 * Copies the refused block to the front of a lent buffer.
 * Answers BM_TAG_NONE with the number of bytes copied as its first place: 512, or 0 where there is no such
 * block, also where an image is refused for something else or a clause is broken. Answers BM_TAG_NO_ROOM
 * where the buffer is shorter than the block. What it does not copy to stays as it was.
 */
uint64_t bm_copy_refused_block(const uint8_t *model, size_t model_bytes,
                               const uint8_t *estimate, size_t estimate_bytes,
                               uint8_t *out, size_t out_bytes);

/*
 * Starts a model: writes its first state. What stands in the state before does not matter.
 * Answers 0; BM_TAG_MODEL where the model is refused; BM_TAG_CALL with 10 where the state is not 9,112
 * words. Where it answers 0 it has written every word of the state; where it refuses, the state stays as
 * it was.
 */
uint64_t bm_start(const uint8_t *model, size_t model_bytes, uint32_t *state, size_t state_words);

/*
 * Makes one move in a state.
 * Answers 0 where the move is made; BM_TAG_MODEL where the model is refused; BM_TAG_CALL with 10 (length of
 * the state), 11 (a state that breaks the state rules) or 12 to 20 (the move itself; where it meets
 * several, the first of 12, 13, 14, 15, 18, 16, 17, 19, 20). Where it answers 0 the state is the one after
 * the move; where it refuses, the state stays as it was.
 */
uint64_t bm_step(const uint8_t *model, size_t model_bytes, uint32_t *state, size_t state_words,
                 uint32_t kind, uint32_t box, uint32_t thread, uint32_t box2, uint32_t thread2);

/*
 * Makes a list of moves, each in turn, and passes over those that are refused.
 * Answers 0 where the run is made; BM_TAG_MODEL where the model is refused; BM_TAG_CALL with 10 (length of
 * the state, or not one answer a move) or 11. Where it answers 0 the state is the one after the last move,
 * and each answer is a byte: 0 for a move made, or the refusal's number, 12 to 20. Where it refuses, state
 * and answers stay as they were.
 */
uint64_t bm_run(const uint8_t *model, size_t model_bytes, uint32_t *state, size_t state_words,
                const struct bm_move *moves, size_t move_count,
                uint8_t *answers, size_t answer_count);

/* The parts of an answer. */
static inline enum bm_answer_tag bm_tag(uint64_t answer) {
    return (enum bm_answer_tag)(answer & 0xff);
}

static inline uint32_t bm_number(uint64_t answer) {
    return (uint32_t)(answer >> 8) & 0xff;
}

static inline uint32_t bm_first(uint64_t answer) {
    return (uint32_t)(answer >> 16) & 0xffff;
}

static inline uint32_t bm_second(uint64_t answer) {
    return (uint32_t)(answer >> 32) & 0xffff;
}

static inline uint32_t bm_name(uint64_t answer) {
    return (uint32_t)(answer >> 48) & 0xff;
}

/* An answer of bm_refused_block: at which byte of its image the block starts, and how many bytes it has. */
static inline size_t bm_part_offset(uint64_t answer) {
    return (size_t)BM_BLOCK_BYTES * bm_first(answer);
}

static inline size_t bm_part_length(uint64_t answer) {
    return bm_second(answer);
}

/* The trade's word for a refusal; for a number that is none, an empty text. */
static inline const char *bm_refusal_word(uint32_t number) {
    static const char *const words[] = {"",
        "length", "check", "heading", "count", "stray", "site", "line", "tree", "reach", "room",
        "spoilt", "nobody", "self", "wrong line", "channel", "no site", "unfit", "private", "full",
        "spent"};
    return number <= BM_REFUSAL_SPENT ? words[number] : words[0];
}

/*
 * The words of a state. Boxes are 0 to 7, sites and threads 0 to 15, names 0 to 59.
 * A record has its last stamp, its counts of threads and sites, 16 sites and 16 threads. A site is its
 * subject, 0 shown or 1 hidden, and its type as 8 held names; a thread is its line and a held name for each
 * name, 0 for a name that is not bound there.
 */
static inline const uint32_t *bm_record(const uint32_t *state, uint32_t box) {
    return state + (size_t)BM_RECORD_WORDS * box;
}

static inline uint32_t bm_last_stamp(const uint32_t *record) {
    return record[0];
}

static inline uint32_t bm_thread_count(const uint32_t *record) {
    return record[1];
}

static inline uint32_t bm_site_count(const uint32_t *record) {
    return record[2];
}

static inline const uint32_t *bm_site(const uint32_t *record, uint32_t site) {
    return record + 3 + (size_t)BM_SITE_WORDS * site;
}

static inline const uint32_t *bm_thread(const uint32_t *record, uint32_t thread) {
    return record + 3 + (size_t)BM_SITE_WORDS * 16 + (size_t)BM_THREAD_WORDS * thread;
}

static inline uint32_t bm_line(const uint32_t *thread) {
    return thread[0];
}

static inline uint32_t bm_binding(const uint32_t *thread, uint32_t name) {
    return thread[1 + (size_t)name];
}

/* A held name that is not 0: the number of the name that it was made from, and its stamp. */
static inline uint32_t bm_held_number(uint32_t held) {
    return (held - 1) % 64;
}

static inline uint32_t bm_held_stamp(uint32_t held) {
    return (held - 1) / 64;
}

#ifdef __cplusplus
}
#endif

#endif
