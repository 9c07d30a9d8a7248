/*
 * The calls from C, on model K and its estimates, and on the virus that the lymphocyte does not recognise:
 * example FOLDER, where FOLDER holds the examples. Each line says what was asked, the answer, and what it
 * means.
 */
#include "brothmaple.h"

#include <stdio.h>
#include <stdlib.h>
#include <string.h>

/* K's names, by number. */
static const char *const names[] = {"x", "z", "y", "u", "v", "c"};
enum { NAME_Y = 2 };

/* An image: one byte more than the largest, so that a longer file is refused for its length. */
struct image {
    uint8_t bytes[BM_MODEL_BYTES + 1];
    size_t length;
};

static void load(const char *folder, const char *name, struct image *image) {
    char path[4096];
    const int length = snprintf(path, sizeof path, "%s/%s", folder, name);
    FILE *file = length < (int)sizeof path ? fopen(path, "rb") : NULL;
    if (file == NULL) {
        perror(path);
        exit(EXIT_FAILURE);
    }
    image->length = fread(image->bytes, 1, sizeof image->bytes, file);
    fclose(file);
}

static void tell_refusal(const char *what, uint64_t answer) {
    printf("%s refused with %u (%s), places %u and %u.\n", what, bm_number(answer),
           bm_refusal_word(bm_number(answer)), bm_first(answer), bm_second(answer));
}

/* What any call answers, as a sentence; where nothing is refused and nothing is broken, the one given. */
static void tell(uint64_t answer, const char *in_order) {
    switch (bm_tag(answer)) {
    case BM_TAG_NONE:
        puts(in_order);
        return;
    case BM_TAG_CLAUSE:
        printf("No: clause %u is broken, box %u, record %u: name %u is missing.\n", bm_number(answer),
               bm_first(answer), bm_second(answer), bm_name(answer));
        return;
    case BM_TAG_MODEL:
        tell_refusal("The model is", answer);
        return;
    case BM_TAG_ESTIMATE:
        tell_refusal("The estimate is", answer);
        return;
    case BM_TAG_YES:
        puts("Yes: from the start, no inter move of it is ever made.");
        return;
    case BM_TAG_NO:
        puts("No: it shares a type with another box.");
        return;
    case BM_TAG_CALL:
        tell_refusal("The call is", answer);
        return;
    case BM_TAG_NO_ROOM:
        puts("The buffer is too short.");
        return;
    }
    printf("no answer of this library: %llx.\n", (unsigned long long)answer);
    exit(EXIT_FAILURE);
}

static void ask_check(const char *asked, const struct image *model, const struct image *estimate) {
    printf("%s ", asked);
    tell(bm_check(model->bytes, model->length, estimate->bytes, estimate->length),
         "Yes: it is accepted.");
}

static void ask_shut_off(const struct image *model, const struct image *estimate, uint32_t box) {
    printf("Is box %u shut off? ", box);
    tell(bm_shut_off(model->bytes, model->length, estimate->bytes, estimate->length, box), "");
}

static void ask_images(const struct image *model, const struct image *estimate) {
    printf("Is the model in order? ");
    tell(bm_read_model(model->bytes, model->length), "Yes.");
    printf("Is the estimate in order? ");
    tell(bm_read_estimate(model->bytes, model->length, estimate->bytes, estimate->length), "Yes.");
    ask_check("Does the estimate cover all that the model can do?", model, estimate);
}

/* Where the refused block stands, and whether the copy of it is the same. */
static void ask_refused_block(const struct image *model, const struct image *estimate) {
    const uint64_t part =
        bm_refused_block(model->bytes, model->length, estimate->bytes, estimate->length);
    const struct image *image = bm_tag(part) == BM_TAG_MODEL ? model : estimate;
    const size_t offset = bm_part_offset(part);
    const size_t length = bm_part_length(part);
    printf("Where is the refused block? %zu bytes of the %s from byte %zu.\n", length,
           image == model ? "model" : "estimate", offset);

    uint8_t copy[BM_BLOCK_BYTES];
    const uint64_t copied = bm_copy_refused_block(model->bytes, model->length, estimate->bytes,
                                                  estimate->length, copy, sizeof copy);
    const int same = bm_tag(copied) == BM_TAG_NONE && bm_first(copied) == length &&
                     memcmp(copy, image->bytes + offset, length) == 0;
    printf("Is a copy of it the same? %s, %u bytes.\n", same ? "Yes" : "No", bm_first(copied));
    printf("Is there room for it in 511 bytes? ");
    tell(bm_copy_refused_block(model->bytes, model->length, estimate->bytes, estimate->length, copy,
                               sizeof copy - 1),
         "Yes.");
}

/* The lines of a box's threads, and what they hold for y. */
static void tell_box(const uint32_t *state, uint32_t box) {
    const uint32_t *record = bm_record(state, box);
    printf("  Box %u has %u site(s) and %u thread(s):", box, bm_site_count(record),
           bm_thread_count(record));
    for (uint32_t t = 0; t < bm_thread_count(record); t++) {
        const uint32_t *thread = bm_thread(record, t);
        const uint32_t held = bm_binding(thread, NAME_Y);
        printf(" line %u", bm_line(thread));
        if (held != 0) {
            printf(" with y = %s, stamp %u", names[bm_held_number(held)], bm_held_stamp(held));
        }
        putchar(t + 1 < bm_thread_count(record) ? ',' : '.');
    }
    putchar('\n');
}

static void tell_state(const uint32_t *state) {
    tell_box(state, 0);
    tell_box(state, 1);
}

static void start(const struct image *model, uint32_t *state, size_t words) {
    printf("Start the model into %zu words. ", words);
    tell(bm_start(model->bytes, model->length, state, words), "It is started.");
}

static void step(const struct image *model, uint32_t *state, const char *what, struct bm_move m) {
    printf("%s. ", what);
    tell(bm_step(model->bytes, model->length, state, BM_STATE_WORDS, m.kind, m.box, m.thread, m.box2,
                 m.thread2),
         "The move is made.");
}

/* Box 0 spreads and communicates with itself. */
static void steps(const struct image *model, uint32_t *state) {
    const struct bm_move spread = {BM_MOVE_SPREAD, 0, 0, 0, 0};
    const struct bm_move intra = {BM_MOVE_INTRA, 0, 0, 0, 1};
    start(model, state, BM_STATE_WORDS - 1);
    start(model, state, BM_STATE_WORDS);
    tell_state(state);
    step(model, state, "Box 0, spread thread 0", spread);
    tell_state(state);
    step(model, state, "Box 0, thread 0 receives from thread 1", intra);
    tell_state(state);
    step(model, state, "The same again", intra);
}

static void run_into(const struct image *model, uint32_t *state, const struct bm_move *moves,
                     size_t move_count, uint8_t *answers, size_t answer_count) {
    printf("Run %zu moves with room for %zu answers. ", move_count, answer_count);
    tell(bm_run(model->bytes, model->length, state, BM_STATE_WORDS, moves, move_count, answers,
                answer_count),
         "The run is made.");
}

/* Box 0 spreads and receives from box 1; the second time there is nothing to receive. */
static void run(const struct image *model, uint32_t *state) {
    const struct bm_move moves[] = {
        {BM_MOVE_SPREAD, 0, 0, 0, 0},
        {BM_MOVE_INTER, 0, 0, 1, 0},
        {BM_MOVE_INTER, 0, 0, 1, 0},
    };
    enum { MOVES = sizeof moves / sizeof moves[0] };
    uint8_t answers[MOVES] = {0};
    start(model, state, BM_STATE_WORDS);
    run_into(model, state, moves, MOVES, answers, MOVES - 1);
    run_into(model, state, moves, MOVES, answers, MOVES);
    for (size_t i = 0; i < MOVES; i++) {
        printf("  Move %zu: %u, %s.\n", i, answers[i],
               answers[i] == 0 ? "made" : bm_refusal_word(answers[i]));
    }
    tell_state(state);
}

/* Model K: accepted, broken, damaged; then its moves. */
static void tell_k(const char *folder) {
    static struct image model, estimate, broken;
    static uint32_t state[BM_STATE_WORDS];
    load(folder, "k/accepted/model.blk", &model);
    load(folder, "k/accepted/estimate.blk", &estimate);
    load(folder, "k/clause-5-0-1/estimate.blk", &broken);
    puts("Model K.");
    ask_images(&model, &estimate);
    ask_check("Does it with z taken out of rho(y)?", &model, &broken);
    for (uint32_t box = 0; box < 3; box++) {
        ask_shut_off(&model, &estimate, box);
    }
    ask_refused_block(&model, &estimate);
    estimate.bytes[700] ^= 1;
    ask_check("Does it with one bit of byte 700 turned?", &model, &estimate);
    ask_refused_block(&model, &estimate);
    steps(&model, state);
    run(&model, state);
}

/* The virus that the lymphocyte, box 1, does not recognise. */
static void tell_virus(const char *folder) {
    static struct image model, estimate;
    load(folder, "virus/unrecognised/model.blk", &model);
    load(folder, "virus/unrecognised/estimate.blk", &estimate);
    puts("The virus that is not recognised.");
    ask_images(&model, &estimate);
    ask_shut_off(&model, &estimate, 1);
}

int main(int argc, char **argv) {
    if (argc != 2) {
        fputs("usage: example FOLDER\n", stderr);
        return EXIT_FAILURE;
    }
    tell_k(argv[1]);
    tell_virus(argv[1]);
    return EXIT_SUCCESS;
}
