/*
 * The lists of a mesh one by one, in each call. No call writes past what it is lent of a list. Each list alone can be the
 * one that is full, but for the colours where there is no colour: these are let be, whatever they are. Which words are
 * written is held to document 01 in words.c. Returns 1 if anything differs.
 */
#include <stdio.h>
#include "calls.h"

enum { AIR, ROCK, TYPES };
enum { WIDTH = 3, HEIGHT = 2, LENGTH = 4, CELLS = WIDTH * HEIGHT * LENGTH };
enum { POSITIONS, NORMALS, UVS, COLOURS, TRIANGLES, LINKS, SLOTS, LISTS };
enum { MOST_CUBE = 24 * 12, MOST = 30, WORDS = 16 * (MOST + LISTS) + 41 };

static const char *const LIST[LISTS] = {"positions", "normals", "uvs", "colours", "triangles", "links", "slots"};
static const size_t EACH[SLOTS] = {12, 12, 8, 16, 6, 1}; /* words a quad */

static const uint8_t kinds[TYPES] = {NOTHING, NORMAL_CUBE}, covers[TYPES] = {0, 63};
static uint32_t cubes[TYPES * MOST_CUBE];

/* by y, then z, then x: a rock alone, and two side by side */
enum { ALONE = 0, FRESH = 16 };
static const uint8_t ground[CELLS] = {[ALONE] = ROCK, [7] = ROCK, [8] = ROCK};
static const struct chunk chunk = {WIDTH, HEIGHT, LENGTH, {NULL, 0}, {ground, CELLS}};

/* two rocks put where nothing is around, and the one alone dug */
static const uint8_t laid[2][ENTRY] = {
    {22, 0, 0, 0, ADDED, ROCK, OUTSIDE, AIR, AIR,     AIR, OUTSIDE, AIR,     NO_FORMER},
    {14, 0, 0, 0, ADDED, ROCK, OUTSIDE, AIR, OUTSIDE, AIR, AIR,     OUTSIDE, NO_FORMER}};
static const uint8_t dug[1][ENTRY] = {{ALONE, 0, 0, 0, BROKEN, ROCK, AIR, OUTSIDE, AIR, OUTSIDE, AIR, OUTSIDE, ROCK}};
/* of a rock beside another two sides are hidden, and the one that it lacks is drawn; then three where nothing is */
static const uint8_t cut[2][ENTRY] = {
    {7,  0, 0, 0, SIDES, ROCK, HIDE, KEEP, DRAW, KEEP, HIDE, KEEP, NO_FORMER},
    {14, 0, 0, 0, SIDES, ROCK, DRAW, KEEP, KEEP, DRAW, DRAW, KEEP, NO_FORMER}};
/* a rock beside another is replaced by its like: five sides go, the other's Left and five come, and it goes; then air is */
static const uint8_t swapped[2][ENTRY] = {
    {7,  0, 0, 0, REPLACED, ROCK, AIR,     OUTSIDE, ROCK,    AIR, AIR, AIR,     ROCK},
    {14, 0, 0, 0, REPLACED, ROCK, OUTSIDE, AIR,     OUTSIDE, AIR, AIR, OUTSIDE, AIR}};

static struct types types_of(uint32_t coloured) {
    return (struct types){
        .kinds = {kinds, TYPES}, .covers = {covers, TYPES}, .cubes = {cubes, TYPES * 24 * (coloured ? 12 : 8)},
        .d = {1, 0.75f, 4}, .centre = {10, 20, 30}, .coloured = coloured};
}

static struct answer build_rock(uint32_t coloured) {
    static uint32_t texture[18] = {TOP, 0, 9, BOTTOM, 1, 7, RIGHT, 2, 5, LEFT, 3, 6, BACK, 4, 8, FORWARD, 5, 1};
    uint32_t size = 24 * (coloured ? 12 : 8);
    struct voxel rock = {
        .d = {1, 0.75f, 4}, .centre = {10, 20, 30}, .atlas_width = 8, .atlas_height = 4, .texture = {texture, 18},
        .padding = 0.125f, .coloured = coloured, .colour = 0.25f, .alpha = 0.5f};
    return build(&rock, (struct words){cubes + ROCK * size, size});
}

/* ---- lists, and what is lent of them ---- */

struct memory {
    uint32_t list[LISTS][WORDS];
};

/* what stands in a list before a call: no two words of all lists are alike */
static void fill(struct memory *memory) {
    for (uint32_t list = 0; list < LISTS; list++)
        for (uint32_t i = 0; i < WORDS; i++) memory->list[list][i] = 0xA5000000 + 0x10000 * list + i;
}

static struct words *list_of(struct mesh *lists, int list) {
    struct words *all[LISTS] = {
        &lists->positions, &lists->normals, &lists->uvs, &lists->colours, &lists->triangles, &lists->links, &lists->slots};
    return all[list];
}

/* more than any call here needs, of each list another number of quads, and of words that are no quad */
static struct mesh plenty_of(struct memory *memory) {
    struct mesh lists;
    for (int list = 0; list < SLOTS; list++) {
        size_t past = list == LINKS ? 0 : 1 + list;
        *list_of(&lists, list) = (struct words){memory->list[list], EACH[list] * (MOST + list) + past};
    }
    lists.slots = (struct words){memory->list[SLOTS], CELLS * 6 + 5};
    return lists;
}

/* ---- calls ---- */

enum call { MESH, CHECK, UPDATE };

/* A call that needs room for so many quads, the highest count on its way; what it answers with that, and with a word less. */
struct trial {
    const char *what;
    enum call call;
    struct bytes log;
    uint64_t needed;
    struct answer due, refusal;
};

static const struct trial trials[] = {
    {"mesh", MESH, {NULL, 0}, FRESH, {MESHEM_DONE, 0, FRESH, 0}, {MESHEM_NO_ROOM, 0, 0, 0}},
    {"check", CHECK, {NULL, 0}, FRESH, {MESHEM_DONE, 0, 0, 0}, {MESHEM_BAD_COUNT, 0, 0, 0}},
    {"update that removes", UPDATE, {dug[0], ENTRY}, FRESH, {MESHEM_DONE, 0, 10, 10}, {MESHEM_BAD_COUNT, 0, 0, 0}},
    {"update that draws", UPDATE, {laid[0], ENTRY}, FRESH + 6, {MESHEM_DONE, 0, 22, 0}, {MESHEM_NO_ROOM, 0, FRESH, 0}},
    {"update that draws twice", UPDATE, {laid[0], 2 * ENTRY}, FRESH + 12, {MESHEM_DONE, 0, 28, 0}, {MESHEM_NO_ROOM, 1, 22, 0}},
    {"update of sides", UPDATE, {cut[0], ENTRY}, FRESH, {MESHEM_DONE, 0, 15, 6}, {MESHEM_BAD_COUNT, 0, 0, 0}},
    {"update of sides twice", UPDATE, {cut[0], 2 * ENTRY}, FRESH + 2, {MESHEM_DONE, 0, 18, 6}, {MESHEM_NO_ROOM, 1, 15, 6}},
    {"update that replaces", UPDATE, {swapped[0], ENTRY}, FRESH + 1, {MESHEM_DONE, 0, 16, 19}, {MESHEM_NO_ROOM, 0, FRESH, 0}},
    {"update that replaces twice", UPDATE, {swapped[0], 2 * ENTRY}, FRESH + 6, {MESHEM_DONE, 0, 22, 19}, {MESHEM_NO_ROOM, 1, 16, 19}},
};
enum { TRIALS = sizeof trials / sizeof trials[0] };

static struct answer called(const struct trial *trial, struct mesh lists, uint32_t coloured) {
    struct types types = types_of(coloured);
    if (trial->call == MESH) return mesh(&chunk, &types, CULLING, lists);
    if (trial->call == CHECK) return check(&chunk, &types, lists, FRESH);
    return mend(lists, FRESH, &chunk, trial->log, MESHEM_TESTED_ITSELF, &types);
}

/* what a trial starts from: but for the mesh call the mesh of the ground */
static void start(const struct trial *trial, uint32_t coloured, struct memory *memory) {
    struct types types = types_of(coloured);
    fill(memory);
    if (trial->call != MESH) mesh(&chunk, &types, CULLING, plenty_of(memory));
}

/* ---- what is held ---- */

static unsigned answers_held, words_held, differences;

static void differs(const char *what, const char *list, uint32_t coloured) {
    differences++;
    printf("%s, %s, %s\n", what, list, coloured ? "with colour" : "without colour");
}

static void hold_answer(const char *what, const char *list, uint32_t coloured, struct answer told, struct answer due) {
    answers_held++;
    if (told.number == due.number && told.place == due.place && told.quads == due.quads && told.moved == due.moved) return;
    differs(what, list, coloured);
    printf("  %s at %u, quads %u moved %u\n", name(told.number), (unsigned)told.place, (unsigned)told.quads, (unsigned)told.moved);
}

static void hold_words(const char *what, const char *list, uint32_t coloured, const void *got, const void *due, size_t count) {
    words_held += count;
    if (memcmp(got, due, 4 * count) != 0) differs(what, list, coloured);
}

static void hold_memory(const char *what, const char *list, uint32_t coloured, const struct memory *got, const struct memory *due) {
    hold_words(what, list, coloured, got, due, sizeof *got / 4);
}

/* ---- the trials ---- */

/* With plenty of room: what lies past the quads needed is as it was, and so are the colours without colour. */
static void with_plenty(const struct trial *trial, uint32_t coloured, struct memory *after) {
    static struct memory before;
    start(trial, coloured, &before);
    *after = before;
    hold_answer(trial->what, "plenty of all", coloured, called(trial, plenty_of(after), coloured), trial->due);
    if (trial->call == CHECK) hold_memory(trial->what, "only read", coloured, after, &before);
    for (int list = 0; list < SLOTS; list++) {
        size_t from = list == COLOURS && !coloured ? 0 : EACH[list] * trial->needed;
        hold_words(trial->what, LIST[list], coloured, after->list[list] + from, before.list[list] + from, WORDS - from);
    }
    hold_words(trial->what, LIST[SLOTS], coloured, after->list[SLOTS] + 6 * CELLS, before.list[SLOTS] + 6 * CELLS, WORDS - 6 * CELLS);
}

/* With so many words of one list, and plenty of all others. */
static void with_length(const struct trial *trial, int list, size_t len, uint32_t coloured, struct answer due,
                        const struct memory *left) {
    static struct memory memory;
    struct mesh lists = plenty_of(&memory);
    start(trial, coloured, &memory);
    list_of(&lists, list)->len = len;
    hold_answer(trial->what, LIST[list], coloured, called(trial, lists, coloured), due);
    hold_memory(trial->what, LIST[list], coloured, &memory, left);
}

/* One list has just the room, then all but a word of one quad more, then a word too few. */
static void with_each_list(const struct trial *trial, uint32_t coloured, const struct memory *done, const struct memory *refused) {
    for (int list = 0; list < SLOTS; list++) {
        size_t len = EACH[list] * trial->needed;
        if (list == COLOURS && !coloured) continue;
        with_length(trial, list, len, coloured, trial->due, done);
        with_length(trial, list, len + EACH[list] - 1, coloured, trial->due, done);
        with_length(trial, list, len - 1, coloured, trial->refusal, refused);
    }
}

/* Without colour: lists of colours that are too short with it, and none at all. */
static void with_any_colours(const struct trial *trial, const struct memory *done) {
    static struct memory memory;
    static const size_t lengths[] = {0, 1, 7, 31, 16 * FRESH - 1, WORDS};
    struct mesh lists = plenty_of(&memory);
    for (size_t i = 0; i < sizeof lengths / sizeof lengths[0]; i++) with_length(trial, COLOURS, lengths[i], 0, trial->due, done);
    lists.colours = (struct words){NULL, 0};
    start(trial, 0, &memory);
    hold_answer(trial->what, "no colours", 0, called(trial, lists, 0), trial->due);
    hold_memory(trial->what, "no colours", 0, &memory, done);
}

/* Wrong on purpose, and so to be told: a word of each list, and each number of an answer. How many of them are. */
enum { WRONG = LISTS + 4 };
static unsigned wrong_told(void) {
    static struct memory right, wrong;
    static const struct answer due = {MESHEM_NO_ROOM, 1, 22, 3}, told[4] = {
        {MESHEM_BAD_COUNT, 1, 22, 3}, {MESHEM_NO_ROOM, 2, 22, 3}, {MESHEM_NO_ROOM, 1, 23, 3}, {MESHEM_NO_ROOM, 1, 22, 4}};
    unsigned others = differences;
    fill(&right);
    for (int list = 0; list < LISTS; list++) {
        wrong = right;
        wrong.list[list][WORDS - 1]++;
        hold_memory("wrong on purpose", LIST[list], 1, &wrong, &right);
    }
    for (int i = 0; i < 4; i++) hold_answer("wrong on purpose", "an answer", 1, told[i], due);
    unsigned found = differences - others;
    differences = others;
    return found;
}

int main(void) {
    static struct memory done[TRIALS], before;
    for (uint32_t coloured = 0; coloured < 2; coloured++) {
        hold_answer("cube", "out", coloured, build_rock(coloured), (struct answer){MESHEM_DONE, 0, 0, 0});
        for (int i = 0; i < TRIALS; i++) with_plenty(&trials[i], coloured, &done[i]);
        for (int i = 0; i < TRIALS; i++) {
            /* out of room at the second entry, the first is done, which is all of the trial before */
            const struct memory *left = trials[i].refusal.place > 0 ? &done[i - 1] : &before;
            start(&trials[i], coloured, &before);
            with_each_list(&trials[i], coloured, &done[i], left);
            if (!coloured) with_any_colours(&trials[i], &done[i]);
        }
    }
    printf("%u words and %u answers held, list by list, %u differ\n", words_held, answers_held, differences);
    return differences > 0 || wrong_told() != WRONG;
}
