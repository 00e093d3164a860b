/*
 * Two cubes side by side: built, meshed, checked; one is dug away, the mesh is mended and checked against the new
 * ground. Then a half-height slab is filled in on the other, testing either side: Meshem's leaves a face too many.
 * Sides of the rock beneath are hidden and drawn, as a streamer of chunks does, and the mesh is put right again. Last,
 * the slab is replaced by rock in one stroke.
 */
#include <stdio.h>
#include "calls.h"

enum { AIR, ROCK, SLAB, TYPES };
enum { WIDTH = 3, HEIGHT = 2, LENGTH = 4, CELLS = WIDTH * HEIGHT * LENGTH };
enum { QUADS = 16, CUBE = 24 * 12 };

/* cells go by y, then z, then x. The second of these is to the Right of the first, the third on top of the second */
enum { DUG = (0 * LENGTH + 2) * WIDTH + 1, KEPT = DUG + 1, ABOVE = KEPT + LENGTH * WIDTH };

static uint32_t cubes[TYPES * CUBE];
static uint32_t positions[QUADS * 12], normals[QUADS * 12], uvs[QUADS * 8], colours[QUADS * 16];
static uint32_t triangles[QUADS * 6], links[QUADS], slots[CELLS * 6];
static const struct mesh lists = {
    {positions, QUADS * 12}, {normals, QUADS * 12}, {uvs, QUADS * 8},    {colours, QUADS * 16},
    {triangles, QUADS * 6},  {links, QUADS},        {slots, CELLS * 6}};

static const uint8_t kinds[TYPES] = {NOTHING, NORMAL_CUBE, NORMAL_CUBE};
static const uint8_t covers[TYPES] = {0, 63, 1 << BOTTOM}; /* nothing, all six sides, its underside */
static const struct types types = {
    .kinds = {kinds, TYPES}, .covers = {covers, TYPES}, .cubes = {cubes, TYPES * CUBE},
    .d = {1, 0.75f, 4}, .centre = {10, 20, 30}, .coloured = 1};

/* a cube as wide and long as a cell; its tiles are of column `column`, a row for each face, in an atlas of 4 by 8 */
static struct answer build_type(int type, uint32_t column, float height, float middle) {
    uint32_t texture[18];
    for (uint32_t face = 0; face < 6; face++) {
        texture[3 * face] = face;
        texture[3 * face + 1] = column;
        texture[3 * face + 2] = face;
    }
    struct voxel voxel = {
        .d = {types.d[0], height, types.d[2]}, .centre = {types.centre[0], middle, types.centre[2]},
        .atlas_width = 4, .atlas_height = 8, .texture = {texture, 18},
        .padding = 0.125f, .coloured = 1, .colour = 0.5f, .alpha = 0.75f};
    return build(&voxel, (struct words){cubes + type * CUBE, CUBE});
}

static struct chunk chunk_of(const uint8_t *grid) {
    return (struct chunk){WIDTH, HEIGHT, LENGTH, {NULL, 0}, {grid, CELLS}};
}

static void mended(const char *what, const uint8_t *entry, enum meshem_tested tested, uint64_t *quads) {
    struct chunk chunk = chunk_of(NULL);
    struct answer told = mend(lists, *quads, &chunk, (struct bytes){entry, ENTRY}, tested, &types);
    *quads = told.quads;
    printf("%s: %s quads %u moved %u\n", what, name(told.number), (unsigned)told.quads, (unsigned)told.moved);
}

static void checked(const char *what, const uint8_t *grid, uint64_t quads) {
    struct chunk chunk = chunk_of(grid);
    struct answer told = check(&chunk, &types, lists, quads);
    printf("check %s: %s", what, name(told.number));
    if (told.number == MESHEM_WRONG_SET) printf(", cell %u face %u", (unsigned)told.place / 6, (unsigned)told.place % 6);
    printf("\n");
}

/* the index says at which vertex the quad of a face starts, if it is drawn */
static void show(uint32_t cell, enum face face) {
    uint32_t first = slots[6 * cell + face];
    if (first == UINT32_MAX) return;
    for (uint32_t vertex = first; vertex < first + 4; vertex++) {
        float at[3], facing[3], uv[2], colour[4];
        memcpy(at, positions + 3 * vertex, sizeof at);
        memcpy(facing, normals + 3 * vertex, sizeof facing);
        memcpy(uv, uvs + 2 * vertex, sizeof uv);
        memcpy(colour, colours + 4 * vertex, sizeof colour);
        printf("  at %g %g %g facing %g %g %g uv %g %g colour %g %g %g %g\n", at[0], at[1], at[2], facing[0], facing[1],
               facing[2], uv[0], uv[1], colour[0], colour[1], colour[2], colour[3]);
    }
}

int main(void) {
    /* what isn't named is air */
    const uint8_t ground[CELLS] = {[DUG] = ROCK, [KEPT] = ROCK}, dug[CELLS] = {[KEPT] = ROCK},
                  laid[CELLS] = {[KEPT] = ROCK, [ABOVE] = SLAB}, piled[CELLS] = {[KEPT] = ROCK, [ABOVE] = ROCK};
    /* the cell in four bytes, the change, the type, its neighbours at Top, Bottom, Right, Left, Back, Forward, the former
     * type; the three bytes past it are zero */
    const uint8_t dig[ENTRY] = {DUG, 0, 0, 0, BROKEN, ROCK, AIR, OUTSIDE, ROCK, AIR, AIR, AIR, ROCK};
    const uint8_t lay[ENTRY] = {ABOVE, 0, 0, 0, ADDED, SLAB, OUTSIDE, ROCK, OUTSIDE, AIR, AIR, AIR, NO_FORMER};
    const uint8_t lift[ENTRY] = {ABOVE, 0, 0, 0, BROKEN, SLAB, OUTSIDE, ROCK, OUTSIDE, AIR, AIR, AIR, SLAB};
    const uint8_t pile[ENTRY] = {ABOVE, 0, 0, 0, REPLACED, ROCK, OUTSIDE, ROCK, OUTSIDE, AIR, AIR, AIR, SLAB};
    /* the same, but what becomes of the cell's own sides */
    const uint8_t cut[ENTRY] = {KEPT, 0, 0, 0, SIDES, ROCK, DRAW, KEEP, HIDE, KEEP, HIDE, KEEP, NO_FORMER};
    const uint8_t uncut[ENTRY] = {KEPT, 0, 0, 0, SIDES, ROCK, HIDE, KEEP, DRAW, KEEP, DRAW, KEEP, NO_FORMER};
    struct chunk chunk = chunk_of(ground);
    struct answer rock, slab, told;
    uint64_t quads;
    if (meshem_abi() != MESHEM_ABI) {
        fprintf(stderr, "the library linked is of level %u, and meshem.h of level %u\n", meshem_abi(), MESHEM_ABI);
        return 1;
    }
    /* a slab is half as high, with its centre a quarter lower, so that its top is at the cell's centre */
    rock = build_type(ROCK, 2, types.d[1], types.centre[1]);
    slab = build_type(SLAB, 3, types.d[1] / 2, types.centre[1] - types.d[1] / 4);
    printf("cubes: %s %s\n", name(rock.number), name(slab.number));
    told = mesh(&chunk, &types, CULLING, lists);
    quads = told.quads;
    printf("mesh: %s quads %u\n", name(told.number), (unsigned)quads);
    checked("the ground", ground, quads);
    mended("dig", dig, MESHEM_TESTED_OPPOSITE, &quads);
    checked("the dug ground", dug, quads);
    checked("the ground before", ground, quads);
    mended("lay a slab, testing the opposite side", lay, MESHEM_TESTED_OPPOSITE, &quads);
    checked("the slab", laid, quads);
    mended("lift it", lift, MESHEM_TESTED_OPPOSITE, &quads);
    checked("the dug ground", dug, quads);
    mended("lay it, testing the side itself", lay, MESHEM_TESTED_ITSELF, &quads);
    checked("the slab", laid, quads);
    mended("draw the Top beneath it, hide Right and Back", cut, MESHEM_TESTED_ITSELF, &quads);
    checked("the slab", laid, quads);
    mended("and the reverse", uncut, MESHEM_TESTED_ITSELF, &quads);
    checked("the slab", laid, quads);
    printf("the slab's Right:\n");
    show(ABOVE, RIGHT);
    mended("replace it by rock", pile, MESHEM_TESTED_ITSELF, &quads);
    checked("the rock", piled, quads);
    checked("the slab before", laid, quads);
    printf("the rock's Right:\n");
    show(ABOVE, RIGHT);
    return 0;
}
