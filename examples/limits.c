/*
 * The limits of a grid's size. A grid of 1,048,576 cells is meshed, a cell is dug out of it, and the mesh is checked
 * before and after. A side or a layer too many is refused by mesh, update and check, and the lists are as they were.
 */
#include <stdio.h>
#include <stdlib.h>
#include "calls.h"

enum { AIR, ROCK, TYPES };
enum { CUBE = 24 * 8, CELLS = 1024 * 32 * 33, QUADS = 170000 };

static const uint8_t kinds[TYPES] = {NOTHING, NORMAL_CUBE};
static const uint8_t covers[TYPES] = {0, 63};
static uint32_t cubes[TYPES * CUBE];
static const struct types types = {
    .kinds = {kinds, TYPES}, .covers = {covers, TYPES}, .cubes = {cubes, TYPES * CUBE}, .d = {0.5f, 0.75f, 4}, .centre = {0.125f, 0.25f, 1}};

static uint8_t *grid;
static struct mesh room;

static struct chunk chunk_of(uint32_t w, uint32_t h, uint32_t l, uint8_t type) {
    struct chunk chunk = {w, h, l, {NULL, 0}, {grid, (size_t)w * h * l}};
    memset(grid, type, chunk.grid.len);
    return chunk;
}

/* six slots a cell, and room for all quads */
static struct mesh lists_of(const struct chunk *chunk) {
    struct mesh lists = room;
    lists.slots.len = 6 * chunk->grid.len;
    return lists;
}

static struct answer build_rock(void) {
    uint32_t texture[18] = {0};
    for (uint32_t face = 0; face < 6; face++) texture[3 * face] = face;
    struct voxel rock = {.d = {0.5f, 0.75f, 4}, .centre = {0.125f, 0.25f, 1}, .atlas_width = 1, .atlas_height = 1, .texture = {texture, 18}};
    return build(&rock, (struct words){cubes + ROCK * CUBE, CUBE});
}

static void checked(const char *what, const struct chunk *chunk, uint64_t quads) {
    struct answer told = check(chunk, &types, lists_of(chunk), quads);
    printf("; check %s %s at %u", what, name(told.number), (unsigned)told.place);
}

static uint64_t meshed(const char *what, const struct chunk *chunk) {
    struct answer told = mesh(chunk, &types, CULLING, lists_of(chunk));
    printf("%ux%ux%u %s: mesh %s quads %u", chunk->width, chunk->height, chunk->length, what, name(told.number), (unsigned)told.quads);
    checked("it", chunk, told.quads);
    return told.quads;
}

/* All rock: the quads are the faces at the grid's edge. A cell within is dug: the six around it show a face each. */
static void solid(uint32_t w, uint32_t h, uint32_t l) {
    struct chunk chunk = chunk_of(w, h, l, ROCK);
    uint32_t cell = (h - 3) * l * w + (l - 4) * w + (w - 2);
    uint8_t dig[ENTRY] = {cell & 255, cell >> 8 & 255, cell >> 16, 0, BROKEN, ROCK, ROCK, ROCK, ROCK, ROCK, ROCK, ROCK, ROCK};
    uint64_t quads = meshed("solid", &chunk);
    printf("; faces at the edge %u", 2 * (w * h + w * l + h * l));
    struct answer told = mend(lists_of(&chunk), quads, &chunk, (struct bytes){dig, ENTRY}, MESHEM_TESTED_ITSELF, &types);
    printf("; dig %s quads %u moved %u", name(told.number), (unsigned)told.quads, (unsigned)told.moved);
    checked("the grid before", &chunk, told.quads);
    grid[cell] = AIR;
    checked("the grid after", &chunk, told.quads);
    printf("; its Bottom neighbour's Top %u\n", 6 * (cell - w * l));
}

/* One rock in the last cell, alone in the air. */
static void alone(uint32_t w, uint32_t h, uint32_t l) {
    struct chunk chunk = chunk_of(w, h, l, AIR);
    grid[chunk.grid.len - 1] = ROCK;
    meshed("alone", &chunk);
    printf("\n");
}

static void fill(struct words list, uint32_t word) {
    for (size_t i = 0; i < list.len; i++) list.at[i] = word;
}

static int holds_only(struct words list, uint32_t word) {
    for (size_t i = 0; i < list.len; i++)
        if (list.at[i] != word) return 0;
    return 1;
}

/* Neither the grid nor the room speaks against these: the sizes alone do. */
static void refused(uint32_t w, uint32_t h, uint32_t l) {
    struct chunk chunk = chunk_of(w, h, l, AIR);
    struct mesh m = lists_of(&chunk);
    struct bytes no_entry = {NULL, 0};
    struct words *lists[6] = {&m.positions, &m.normals, &m.uvs, &m.triangles, &m.links, &m.slots};
    int kept = 1;
    for (uint32_t i = 0; i < 6; i++) fill(*lists[i], i < 5 ? i + 1 : UINT32_MAX);
    printf("%ux%ux%u: mesh %s", w, h, l, name(mesh(&chunk, &types, CULLING, m).number));
    printf(", update %s", name(mend(m, 0, &chunk, no_entry, MESHEM_TESTED_ITSELF, &types).number));
    printf(", check %s", name(check(&chunk, &types, m, 0).number));
    for (uint32_t i = 0; i < 6; i++) kept = kept && holds_only(*lists[i], i < 5 ? i + 1 : UINT32_MAX);
    printf("; lists %s\n", kept ? "as they were" : "changed");
}

static struct words words_of(size_t len) {
    struct words words = {malloc(len * 4), len};
    if (!words.at) exit(1);
    return words;
}

int main(void) {
    grid = malloc(CELLS);
    if (!grid) return 1;
    room = (struct mesh){
        .positions = words_of(QUADS * 12), .normals = words_of(QUADS * 12), .uvs = words_of(QUADS * 8),
        .triangles = words_of(QUADS * 6), .links = words_of(QUADS), .slots = words_of(6 * (size_t)CELLS)};
    printf("cube: %s\n", name(build_rock().number));
    solid(1024, 32, 32);
    solid(32, 1024, 32);
    solid(32, 32, 1024);
    solid(64, 16, 1024);
    alone(1024, 1, 1);
    alone(1, 1024, 1);
    alone(1, 1, 1024);
    alone(1024, 1024, 1);
    refused(1024, 32, 33);
    refused(33, 1024, 32);
    refused(32, 33, 1024);
    refused(1025, 1, 1);
    refused(1, 1025, 1);
    refused(1, 1, 1025);
    refused(0, 1, 1);
    refused(1, 0, 1);
    refused(1, 1, 0);
    return 0;
}
