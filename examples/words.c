/*
 * Every word that the calls write, held to document 01's formulas; and every refusal that a call can give, held to its
 * number and place. C passes arguments by position. Here the numbers of a call all differ, so that no two of them can
 * change places, in a call or in the library, without a word or an answer that shows it. Returns 1 if anything differs.
 */
#include <math.h>
#include <stdio.h>
#include "calls.h"

enum { AIR, ROCK, SLAB, TYPES };
enum { WIDTH = 3, HEIGHT = 2, LENGTH = 4, CELLS = WIDTH * HEIGHT * LENGTH };
enum { QUADS = 20, MOST_FLOATS = 12, MOST_CUBE = 24 * MOST_FLOATS };
/* words of a list past its last quad or cell. Some are lent, of each list another number and none of them a quad; the rest are not */
enum { PAST = 24, NO_COLOURS = 37 };

static const uint32_t SPARE = 0x5A5A5A5A, NO_QUAD = UINT32_MAX;

/* ---- what the calls are given ---- */

static const uint8_t kinds[TYPES] = {NOTHING, NORMAL_CUBE, NORMAL_CUBE};
static const uint8_t covers[TYPES] = {0, 63, 1 << BOTTOM};
static uint32_t cubes[TYPES * MOST_CUBE];

struct memory {
    uint32_t positions[QUADS * 12 + PAST], normals[QUADS * 12 + PAST], uvs[QUADS * 8 + PAST], colours[QUADS * 16 + PAST];
    uint32_t triangles[QUADS * 6 + PAST], links[QUADS + PAST], slots[CELLS * 6 + PAST];
};
static struct memory now;

/* by y, then z, then x: a cell's number is y·12 + z·3 + x */
static const uint8_t ground[CELLS] = {[7] = ROCK, [8] = ROCK, [15] = SLAB};
static const uint8_t after[CELLS] = {[7] = ROCK, [15] = SLAB, [19] = SLAB};
static const uint8_t after_replacing[CELLS] = {[7] = ROCK, [15] = ROCK, [19] = SLAB};
static const uint8_t outer[1] = {RIGHT};

/* a slab laid on rock, rock dug beside it, and rock for which there is no room */
static const uint8_t entries[3][ENTRY] = {
    {19, 0, 0, 0, ADDED,  SLAB, OUTSIDE, ROCK,    AIR,     AIR,     AIR, AIR,     NO_FORMER},
    {8,  0, 0, 0, BROKEN, ROCK, AIR,     OUTSIDE, OUTSIDE, ROCK,    AIR, AIR,     ROCK},
    {0,  0, 0, 0, ADDED,  ROCK, AIR,     OUTSIDE, AIR,     OUTSIDE, AIR, OUTSIDE, NO_FORMER}};
static const struct bytes two_entries = {entries[0], 2 * ENTRY};
/* rock replaced by air, air on the rock beside it by a slab, a slab by rock, and air by a slab for which there is no room */
static const uint8_t replacing[4][ENTRY] = {
    {8,  0, 0, 0, REPLACED, AIR,  AIR,     OUTSIDE, OUTSIDE, ROCK,    AIR, AIR, ROCK},
    {19, 0, 0, 0, REPLACED, SLAB, OUTSIDE, ROCK,    AIR,     AIR,     AIR, AIR, AIR},
    {15, 0, 0, 0, REPLACED, ROCK, OUTSIDE, AIR,     AIR,     OUTSIDE, AIR, AIR, SLAB},
    {8,  0, 0, 0, REPLACED, SLAB, AIR,     OUTSIDE, OUTSIDE, ROCK,    AIR, AIR, AIR}};

static struct bytes first_of(const uint8_t *log, size_t count) {
    return (struct bytes){log, count * ENTRY};
}

/*
 * Sides. Of a rock two are hidden, two that it lacks are drawn, and one is drawn that is there. By a type that is no cube
 * two are hidden, and none is drawn. Of a slab two are hidden. Then six and three are drawn of others, 20 quads by then.
 * So full, one is hidden and one drawn, beside one that is there; then one drawn and one hidden that is not there, for
 * which there is no room.
 */
static const uint8_t sides_told[7][ENTRY] = {
    {8,  0, 0, 0, SIDES, ROCK, HIDE, KEEP, DRAW, DRAW, HIDE, DRAW, NO_FORMER},
    {8,  0, 0, 0, SIDES, AIR,  DRAW, HIDE, HIDE, KEEP, DRAW, KEEP, NO_FORMER},
    {15, 0, 0, 0, SIDES, SLAB, DRAW, HIDE, KEEP, KEEP, HIDE, KEEP, NO_FORMER},
    {0,  0, 0, 0, SIDES, ROCK, DRAW, DRAW, DRAW, DRAW, DRAW, DRAW, NO_FORMER},
    {19, 0, 0, 0, SIDES, SLAB, DRAW, KEEP, DRAW, KEEP, KEEP, DRAW, NO_FORMER},
    {7,  0, 0, 0, SIDES, ROCK, HIDE, KEEP, DRAW, DRAW, KEEP, KEEP, NO_FORMER},
    {15, 0, 0, 0, SIDES, SLAB, KEEP, HIDE, KEEP, KEEP, DRAW, KEEP, NO_FORMER}};
/* of what each quad is */
static const uint8_t drawn_of[CELLS] = {[0] = ROCK, [7] = ROCK, [8] = ROCK, [15] = SLAB, [19] = SLAB};

static uint32_t rock_texture[18] = {TOP, 0, 9, BOTTOM, 1, 7, RIGHT, 2, 5, LEFT, 3, 6, BACK, 4, 8, FORWARD, 5, 1};
/* the last tile for a face wins, here Top's; Forward is not named */
static uint32_t slab_texture[18] = {TOP, 6, 5, BOTTOM, 1, 4, RIGHT, 2, 7, LEFT, 3, 0, BACK, 4, 2, TOP, 5, 3};

static struct chunk chunk_of(const uint8_t *grid) {
    return (struct chunk){WIDTH, HEIGHT, LENGTH, {outer, 1}, {grid, CELLS}};
}

static uint32_t floats(uint32_t coloured) {
    return coloured ? 12 : 8;
}

static struct types types_of(uint32_t coloured) {
    return (struct types){
        .kinds = {kinds, TYPES}, .covers = {covers, TYPES}, .cubes = {cubes, TYPES * 24 * floats(coloured)},
        .d = {1, 0.75f, 4}, .centre = {10, 20, 30}, .coloured = coloured};
}

static struct mesh lists_of(uint32_t coloured) {
    return (struct mesh){
        {now.positions, QUADS * 12 + 7}, {now.normals, QUADS * 12 + 11}, {now.uvs, QUADS * 8 + 3},
        {now.colours, coloured ? QUADS * 16 + 13 : NO_COLOURS},
        {now.triangles, QUADS * 6 + 5}, {now.links, QUADS}, {now.slots, CELLS * 6 + 2}};
}

/* a slab is the lower half of its cell */
static struct voxel voxel_of(int type, uint32_t coloured) {
    struct voxel rock = {
        .d = {1, 0.75f, 4}, .centre = {10, 20, 30}, .atlas_width = 8, .atlas_height = 4, .texture = {rock_texture, 18},
        .padding = 0.125f, .coloured = coloured, .colour = 0.25f, .alpha = 0.5f};
    struct voxel slab = {
        .d = {1, 0.375f, 4}, .centre = {10, 19.8125f, 30}, .atlas_width = 2, .atlas_height = 16, .texture = {slab_texture, 18},
        .padding = 0.0625f, .coloured = coloured, .colour = 0.375f, .alpha = 0.75f};
    return type == ROCK ? rock : slab;
}

static struct words cube_of(int type, uint32_t coloured) {
    uint32_t size = 24 * floats(coloured);
    return (struct words){cubes + type * size, size};
}

/* ---- document 01's words ---- */

/* cube corners, by sign per axis, four a face */
static const char *const CORNERS[6][4] = {
    {"-++", "+++", "++-", "-+-"}, {"---", "+--", "+-+", "--+"}, {"++-", "+++", "+-+", "+--"},
    {"---", "--+", "-++", "-+-"}, {"+++", "-++", "--+", "+-+"}, {"+--", "---", "-+-", "++-"}};
static const float NORMALS[6][3] = {{0, 1, 0}, {0, -1, 0}, {1, 0, 0}, {-1, 0, 0}, {0, 0, 1}, {0, 0, -1}};
/* a tile's start and end: Top, Right and Back; Bottom, Left and Forward */
static const char *const TILES[2][4] = {{"ss", "es", "ee", "se"}, {"ee", "se", "ss", "es"}};

static const char *const NAMES[17] = {
    "DONE",       "BAD_FILE",  "BAD_SIZE",  "BAD_TYPES",     "BAD_NUMBER", "BAD_ATLAS", "NOT_A_CUBE", "BAD_FACE",    "BAD_CELL",
    "SHORT_ROOM", "BAD_COUNT", "BAD_LINKS", "BAD_TRIANGLES", "BAD_ENTRY",  "NO_ROOM",   "WRONG_SET",  "WRONG_VERTEX"};

static float uv_due(const struct voxel *v, uint32_t face, int axis, char which) {
    float size = axis == 0 ? v->atlas_width : v->atlas_height, u = 1 / size, p = v->padding / size, start = 0;
    for (int entry = 0; entry < 6; entry++)
        if (v->texture.at[3 * entry] == face) start = v->texture.at[3 * entry + 1 + axis] * u + p;
    return which == 's' ? start : (start + u) - p * 2;
}

static void vertex_due(const struct voxel *v, uint32_t face, int corner, float *due) {
    for (int axis = 0; axis < 3; axis++) {
        float high = v->d[axis] / 2 + v->centre[axis], low = high - v->d[axis];
        due[axis] = CORNERS[face][corner][axis] == '+' ? high : low;
        due[3 + axis] = NORMALS[face][axis];
    }
    for (int axis = 0; axis < 2; axis++) due[6 + axis] = uv_due(v, face, axis, TILES[face % 2][corner][axis]);
    if (v->coloured) {
        for (int part = 8; part < 11; part++) due[part] = v->colour;
        due[11] = v->alpha;
    }
}

struct side {
    uint32_t cell, face;
};

static void quad_due(struct side side, const uint8_t *grid, uint32_t coloured, float *due) {
    static const int order[4] = {0, 1, 3, 2};
    struct voxel voxel = voxel_of(grid[side.cell], coloured);
    struct types types = types_of(coloured);
    uint32_t at[3] = {side.cell % WIDTH, side.cell / (WIDTH * LENGTH), side.cell / WIDTH % LENGTH};
    for (int i = 0; i < 4; i++, due += floats(coloured)) {
        vertex_due(&voxel, side.face, order[i], due);
        for (int axis = 0; axis < 3; axis++) due[axis] += at[axis] * types.d[axis];
    }
}

/* ---- what is held to it ---- */

static unsigned words_held, answers_held, differences;

static void hold(const char *what, const void *got, const void *due, size_t count) {
    words_held += count;
    if (memcmp(got, due, 4 * count) == 0) return;
    differences++;
    printf("%s: not document 01's words\n", what);
}

static void answered(const char *what, struct answer told, uint32_t number, uint64_t place, uint64_t quads, uint64_t moved) {
    answers_held++;
    if (told.number == number && told.place == place && told.quads == quads && told.moved == moved) return;
    differences++;
    printf("%s: %s at %u, quads %u moved %u, and %s at %u, quads %u moved %u is due\n", what, name(told.number),
           (unsigned)told.place, (unsigned)told.quads, (unsigned)told.moved, name(number), (unsigned)place, (unsigned)quads,
           (unsigned)moved);
}

static void refused(const char *what, struct answer told, uint32_t number, uint64_t place) {
    answered(what, told, number, place, 0, 0);
}

static void fill(uint32_t *list, size_t count, uint32_t word) {
    while (count > 0) list[--count] = word;
}

static void spare(struct memory *lists) {
    memset(lists, SPARE & 255, sizeof *lists);
}

/* the floats of an attribute, of the four vertices of a quad */
static void part(const float *quad, uint32_t coloured, int from, int count, uint32_t *list) {
    for (int i = 0; i < 4; i++) memcpy(list + count * i, quad + floats(coloured) * i + from, 4 * count);
}

/* the lists of a mesh: its quads, zeros from there to the highest count that there was, then what was there before */
static void hold_mesh(const char *what, const struct side *sides, uint32_t count, uint32_t highest, const uint8_t *grid,
                      uint32_t coloured) {
    static const uint32_t pattern[6] = {0, 1, 2, 3, 2, 1};
    static struct memory due;
    spare(&due);
    fill(due.positions, highest * 12, 0), fill(due.normals, highest * 12, 0), fill(due.uvs, highest * 8, 0);
    fill(due.triangles, highest * 6, 0), fill(due.links, highest, 0), fill(due.slots, CELLS * 6, NO_QUAD);
    if (coloured) fill(due.colours, highest * 16, 0);
    for (uint32_t q = 0; q < count; q++) {
        float quad[4 * MOST_FLOATS];
        quad_due(sides[q], grid, coloured, quad);
        part(quad, coloured, 0, 3, due.positions + 12 * q);
        part(quad, coloured, 3, 3, due.normals + 12 * q);
        part(quad, coloured, 6, 2, due.uvs + 8 * q);
        if (coloured) part(quad, coloured, 8, 4, due.colours + 16 * q);
        for (int i = 0; i < 6; i++) due.triangles[6 * q + i] = 4 * q + pattern[i];
        due.links[q] = sides[q].cell | (5 - sides[q].face) << 29;
        due.slots[6 * sides[q].cell + sides[q].face] = 4 * q;
    }
    hold(what, &now, &due, sizeof now / 4);
}

/* ---- the calls ---- */

/* by cell, then face: what shows of the ground, where the outer list names Right */
enum { FRESH = 15 };
static const struct side fresh[FRESH] = {
    {7, TOP},  {7, BOTTOM},  {7, LEFT},   {7, BACK},  {7, FORWARD},
    {8, TOP},  {8, BOTTOM},  {8, BACK},   {8, FORWARD},
    {15, TOP}, {15, BOTTOM}, {15, RIGHT}, {15, LEFT}, {15, BACK},   {15, FORWARD}};

struct mending {
    uint32_t quads, moved;
    struct side sides[QUADS];
};

/* a log: how many entries are done before one that has no room, the ground they leave, the most quads on the way, the mesh */
struct work {
    const uint8_t *log;
    size_t done;
    const uint8_t *after;
    uint32_t highest;
    struct mending mendings[2];
};

/*
 * The slab's five sides come last, 20 quads by then. Testing the side itself the rock beneath loses its Top, quad 0, whose
 * place the last quad takes. Then the dug rock's four go, each taken by the last, and the Right of the rock beside it comes.
 */
static const struct work added_and_broken = {entries[0], 2, after, QUADS, {
    [MESHEM_TESTED_OPPOSITE] = {17, 4,
        {{7, TOP},      {7, BOTTOM}, {7, LEFT},    {7, BACK},  {7, FORWARD}, {19, FORWARD}, {19, BACK}, {19, LEFT}, {19, RIGHT},
         {15, TOP},     {15, BOTTOM}, {15, RIGHT}, {15, LEFT}, {15, BACK},   {15, FORWARD}, {19, TOP},  {7, RIGHT}}},
    [MESHEM_TESTED_ITSELF] = {16, 5,
        {{19, FORWARD}, {7, BOTTOM}, {7, LEFT},    {7, BACK},  {7, FORWARD}, {19, BACK},    {19, LEFT}, {19, RIGHT}, {19, TOP},
         {15, TOP},     {15, BOTTOM}, {15, RIGHT}, {15, LEFT}, {15, BACK},   {15, FORWARD}, {7, RIGHT}}}}};

/*
 * The rock's four sides go, and the Right of the one beside it comes: 12. Five of a slab come on top, and testing the side
 * itself the Top beneath it, quad 0, goes. The other slab's six sides go, and six of rock come.
 */
static const struct work replaced = {replacing[0], 3, after_replacing, 17, {
    [MESHEM_TESTED_OPPOSITE] = {17, 24,
        {{7, TOP},      {7, BOTTOM}, {7, LEFT},    {7, BACK},   {7, FORWARD}, {19, RIGHT}, {19, LEFT},   {19, FORWARD}, {19, BACK},
         {7, RIGHT},    {19, TOP},   {15, TOP},    {15, BOTTOM}, {15, RIGHT}, {15, LEFT},  {15, BACK},   {15, FORWARD}}},
    [MESHEM_TESTED_ITSELF] = {16, 31,
        {{19, FORWARD}, {7, BOTTOM}, {7, LEFT},    {7, BACK},   {7, FORWARD}, {19, BACK},  {19, LEFT},   {7, RIGHT},    {19, TOP},
         {19, RIGHT},   {15, TOP},   {15, BOTTOM}, {15, RIGHT}, {15, LEFT},   {15, BACK},  {15, FORWARD}}}}};

/* after the first three of the Sides entries, and after six: the last quad takes a place, or the few after it close up */
enum { LEFT_BY_THREE = 11, LEFT_BY_SIX = 20 };
static const struct side left_by_three[LEFT_BY_THREE] = {
    {7, TOP},  {7, BOTTOM},  {7, LEFT},  {7, BACK},   {7, FORWARD}, {15, FORWARD},
    {8, LEFT}, {8, FORWARD}, {15, TOP},  {15, RIGHT}, {15, LEFT}};
static const struct side left_by_six[LEFT_BY_SIX] = {
    {19, FORWARD}, {7, BOTTOM},  {7, LEFT},  {7, BACK},   {7, FORWARD}, {15, FORWARD},
    {8, LEFT},     {8, FORWARD}, {15, TOP},  {15, RIGHT}, {15, LEFT},
    {0, TOP},      {0, BOTTOM},  {0, RIGHT}, {0, LEFT},   {0, BACK},    {0, FORWARD},
    {19, TOP},     {19, RIGHT},  {7, RIGHT}};

static struct answer mesh_afresh(enum algorithm algorithm, uint32_t coloured) {
    struct chunk chunk = chunk_of(ground);
    struct types types = types_of(coloured);
    struct mesh lists = lists_of(coloured);
    spare(&now);
    return mesh(&chunk, &types, algorithm, lists);
}

static void build_cubes(uint32_t coloured) {
    fill(cubes, TYPES * MOST_CUBE, SPARE);
    for (int type = ROCK; type <= SLAB; type++) {
        struct voxel voxel = voxel_of(type, coloured);
        struct words cube = cube_of(type, coloured);
        float due[MOST_CUBE];
        for (int vertex = 0; vertex < 24; vertex++) vertex_due(&voxel, vertex / 4, vertex % 4, due + vertex * floats(coloured));
        refused("cube", build(&voxel, cube), MESHEM_DONE, 0);
        hold("cube", cube.at, due, cube.len);
    }
}

static void mesh_naively(uint32_t coloured) {
    static const uint32_t cells[3] = {7, 8, 15};
    struct side sides[3 * 6];
    for (uint32_t i = 0; i < 3 * 6; i++) sides[i] = (struct side){cells[i / 6], i % 6};
    answered("naive mesh", mesh_afresh(NAIVE, coloured), MESHEM_DONE, 0, 18, 0);
    hold_mesh("naive mesh", sides, 18, 18, ground, coloured);
}

/* the check takes the ground's mesh, and not one that was made with two sizes of a voxel exchanged */
static void mesh_and_check(uint32_t coloured) {
    struct chunk chunk = chunk_of(ground);
    struct mesh lists = lists_of(coloured);
    struct types types = types_of(coloured);
    answered("mesh", mesh_afresh(CULLING, coloured), MESHEM_DONE, 0, FRESH, 0);
    hold_mesh("mesh", fresh, FRESH, FRESH, ground, coloured);
    refused("check", check(&chunk, &types, lists, FRESH), MESHEM_DONE, 0);
    for (int i = 0; i < 3; i++) {
        struct types other = types;
        other.d[i] = types.d[(i + 1) % 3], other.d[(i + 1) % 3] = types.d[i];
        refused("check by another d", check(&chunk, &other, lists, FRESH), MESHEM_WRONG_VERTEX, 0);
        answered("mesh by another d", mesh(&chunk, &other, CULLING, lists), MESHEM_DONE, 0, FRESH, 0);
        refused("check of another d", check(&chunk, &types, lists, FRESH), MESHEM_WRONG_VERTEX, 0);
        mesh_afresh(CULLING, coloured);
    }
}

/* a float of a quad in each attribute's list: the check names the first quad that differs in any. Colours count with colour alone */
static void wrong_vertices(uint32_t coloured) {
    struct chunk chunk = chunk_of(ground);
    struct mesh lists = lists_of(coloured);
    struct types types = types_of(coloured);
    uint32_t *words[4] = {now.positions + 12 * 6 + 11, now.normals + 12 * 9, now.uvs + 8 * 2 + 7, now.colours + 16 * 1 + 15};
    static const uint64_t quads[4] = {6, 9, 2, 1};
    mesh_afresh(CULLING, coloured);
    for (uint32_t i = 0; i < 3 + coloured; i++) {
        *words[i] ^= 1;
        refused("a vertex", check(&chunk, &types, lists, FRESH), MESHEM_WRONG_VERTEX, quads[i]);
        *words[i] ^= 1;
    }
    for (uint32_t i = 0; i < 4; i++) *words[i] ^= 1u << 31;
    refused("a vertex of each", check(&chunk, &types, lists, FRESH), MESHEM_WRONG_VERTEX, coloured ? 1 : 2);
    for (uint32_t i = 0; i < 3 + coloured; i++) *words[i] ^= 1u << 31;
    refused("other colours", check(&chunk, &types, lists, FRESH), MESHEM_DONE, 0);
}

static void mend_and_check(const struct work *work, enum meshem_tested tested, uint32_t coloured) {
    struct chunk chunk = chunk_of(work->after);
    struct mesh lists = lists_of(coloured);
    struct types types = types_of(coloured);
    const struct mending *due = &work->mendings[tested];
    mesh_afresh(CULLING, coloured);
    answered("update", mend(lists, FRESH, &chunk, first_of(work->log, work->done), tested, &types), MESHEM_DONE, 0,
             due->quads, due->moved);
    hold_mesh("update", due->sides, due->quads, work->highest, work->after, coloured);
    mesh_afresh(CULLING, coloured);
    answered("update out of room", mend(lists, FRESH, &chunk, first_of(work->log, work->done + 1), tested, &types),
             MESHEM_NO_ROOM, work->done, due->quads, due->moved);
    hold_mesh("update out of room", due->sides, due->quads, work->highest, work->after, coloured);
    if (tested == MESHEM_TESTED_ITSELF)
        refused("check after", check(&chunk, &types, lists, due->quads), MESHEM_DONE, 0);
    else
        refused("check after", check(&chunk, &types, lists, due->quads), MESHEM_WRONG_SET, 6 * 7 + TOP);
}

static struct answer sides_mended(size_t count, enum meshem_tested tested, uint32_t coloured) {
    struct chunk chunk = chunk_of(ground);
    struct types types = types_of(coloured);
    mesh_afresh(CULLING, coloured);
    return mend(lists_of(coloured), FRESH, &chunk, first_of(sides_told[0], count), tested, &types);
}

static void hide_and_draw(enum meshem_tested tested, uint32_t coloured) {
    answered("sides", sides_mended(3, tested, coloured), MESHEM_DONE, 0, LEFT_BY_THREE, 9);
    hold_mesh("sides", left_by_three, LEFT_BY_THREE, FRESH, drawn_of, coloured);
    answered("sides of a full mesh", sides_mended(6, tested, coloured), MESHEM_DONE, 0, LEFT_BY_SIX, 10);
    hold_mesh("sides of a full mesh", left_by_six, LEFT_BY_SIX, QUADS, drawn_of, coloured);
    answered("sides out of room", sides_mended(7, tested, coloured), MESHEM_NO_ROOM, 6, LEFT_BY_SIX, 10);
    hold_mesh("sides out of room", left_by_six, LEFT_BY_SIX, QUADS, drawn_of, coloured);
}

/* ---- refusals: one thing is wrong at a time ---- */

static void refusals_of_cubes(void) {
    struct words out = cube_of(ROCK, 0), short_out = {out.at, out.len - 1};
    struct voxel right = voxel_of(ROCK, 0), wrong;
    uint32_t texture[18];
    memcpy(texture, rock_texture, sizeof texture);
    texture[3 * 4] = 6;
    wrong = right, wrong.padding = INFINITY;
    refused("padding", build(&wrong, out), MESHEM_BAD_NUMBER, 0);
    wrong = right, wrong.atlas_height = 0;
    refused("atlas", build(&wrong, out), MESHEM_BAD_ATLAS, 0);
    wrong = right, wrong.texture.at = texture;
    refused("texture's face", build(&wrong, out), MESHEM_BAD_FACE, 4);
    wrong = right, wrong.texture.len = 15;
    refused("texture's length", build(&wrong, out), MESHEM_BAD_FACE, 6);
    refused("cube's room", build(&right, short_out), MESHEM_SHORT_ROOM, 0);
}

/* what mesh and check are given alike */
static void refused_by_both(const char *what, const struct chunk *chunk, const struct types *types, struct mesh lists,
                            uint32_t number, uint64_t place) {
    refused(what, mesh(chunk, types, CULLING, lists), number, place);
    refused(what, check(chunk, types, lists, FRESH), number, place);
}

static void refusals_of_meshes(void) {
    static const uint8_t wide[TYPES] = {0, 63, 64}, faces[2] = {RIGHT, 6}, no_type[CELLS] = {[5] = TYPES};
    const struct chunk right = chunk_of(ground);
    const struct types types = types_of(0);
    const struct mesh lists = lists_of(0);
    struct chunk chunk;
    struct types other;
    struct mesh room;
    chunk = right, chunk.grid.len--;
    refused_by_both("grid's length", &chunk, &types, lists, MESHEM_BAD_SIZE, 0);
    other = types, other.kinds.len--;
    refused_by_both("kinds' length", &right, &other, lists, MESHEM_BAD_TYPES, 255);
    other = types, other.covers.len--;
    refused_by_both("sets' length", &right, &other, lists, MESHEM_BAD_TYPES, 255);
    other = types, other.covers.at = wide;
    refused_by_both("set", &right, &other, lists, MESHEM_BAD_TYPES, SLAB);
    other = types, other.d[1] = INFINITY;
    refused_by_both("d", &right, &other, lists, MESHEM_BAD_NUMBER, 0);
    other = types, other.centre[1] = 10;
    refused_by_both("centre", &right, &other, lists, MESHEM_NOT_A_CUBE, ROCK);
    chunk = right, chunk.outer = (struct bytes){faces, 2};
    refused_by_both("outer", &chunk, &types, lists, MESHEM_BAD_FACE, 1);
    chunk = right, chunk.grid.at = no_type;
    refused_by_both("grid", &chunk, &types, lists, MESHEM_BAD_CELL, 5);
    room = lists, room.slots.len = CELLS * 6 - 1;
    refused_by_both("slots", &right, &types, room, MESHEM_SHORT_ROOM, 0);
    room = lists, room.links.len = FRESH - 1;
    refused("links", mesh(&right, &types, CULLING, room), MESHEM_NO_ROOM, 0);
    refused("links", check(&right, &types, room, FRESH), MESHEM_BAD_COUNT, 0);
}

/* what update and check are given alike: a word of a right mesh is changed, and changed back */
static void damaged(const char *what, uint32_t *word, uint32_t number, uint64_t place) {
    const struct chunk chunk = chunk_of(ground);
    const struct types types = types_of(0);
    *word ^= 1;
    refused(what, check(&chunk, &types, lists_of(0), FRESH), number, place);
    refused(what, mend(lists_of(0), FRESH, &chunk, two_entries, MESHEM_TESTED_ITSELF, &types), number, place);
    *word ^= 1;
}

/* entries that are wrong in one thing */
struct bad {
    const char *what;
    uint8_t entry[ENTRY];
};
static const struct bad bad_entries[] = {
    {"cell", {CELLS, 0, 0, 0, BROKEN, ROCK, AIR, AIR, AIR, AIR, AIR, AIR, ROCK}},
    {"change", {8, 0, 0, 0, 4, ROCK, AIR, ROCK, AIR, AIR, AIR, AIR, ROCK}},
    {"type", {8, 0, 0, 0, REPLACED, TYPES, AIR, ROCK, AIR, AIR, AIR, AIR, SLAB}},
    {"neighbour", {8, 0, 0, 0, REPLACED, ROCK, AIR, ROCK, TYPES, AIR, AIR, AIR, SLAB}},
    {"side", {8, 0, 0, 0, SIDES, ROCK, KEEP, HIDE, DRAW, KEEP, 3, DRAW, NO_FORMER}},
    {"former type of Broken", {8, 0, 0, 0, BROKEN, ROCK, AIR, AIR, AIR, AIR, AIR, AIR, SLAB}},
    {"no former type of Broken", {8, 0, 0, 0, BROKEN, ROCK, AIR, AIR, AIR, AIR, AIR, AIR, NO_FORMER}},
    {"former type of Added", {8, 0, 0, 0, ADDED, ROCK, AIR, AIR, AIR, AIR, AIR, AIR, ROCK}},
    {"former type of Sides", {8, 0, 0, 0, SIDES, ROCK, HIDE, HIDE, HIDE, HIDE, HIDE, HIDE, ROCK}},
    {"former type of Replaced", {8, 0, 0, 0, REPLACED, ROCK, AIR, AIR, AIR, AIR, AIR, AIR, TYPES}},
    {"no former type of Replaced", {8, 0, 0, 0, REPLACED, ROCK, AIR, AIR, AIR, AIR, AIR, AIR, NO_FORMER}},
    {"byte 13 of Broken", {8, 0, 0, 0, BROKEN, ROCK, AIR, AIR, AIR, AIR, AIR, AIR, ROCK, 1, 0, 0}},
    {"byte 13 of Added", {8, 0, 0, 0, ADDED, ROCK, AIR, AIR, AIR, AIR, AIR, AIR, NO_FORMER, 8, 0, 0}},
    {"byte 14 of Sides", {8, 0, 0, 0, SIDES, ROCK, KEEP, KEEP, KEEP, KEEP, KEEP, KEEP, NO_FORMER, 0, 2, 0}},
    {"byte 15 of Replaced", {8, 0, 0, 0, REPLACED, ROCK, AIR, AIR, AIR, AIR, AIR, AIR, SLAB, 0, 0, 4}},
};
enum { BAD_ENTRIES = sizeof bad_entries / sizeof bad_entries[0] };

/* each after good ones, 0 to 2 of them */
static void refusals_of_entries(void) {
    const struct chunk chunk = chunk_of(ground);
    const struct types types = types_of(0);
    uint8_t log[3][ENTRY];
    for (int i = 0; i < BAD_ENTRIES; i++) {
        memcpy(log, replacing, sizeof log);
        memcpy(log[i % 3], bad_entries[i].entry, ENTRY);
        refused(bad_entries[i].what, mend(lists_of(0), FRESH, &chunk, first_of(log[0], i % 3 + 1), MESHEM_TESTED_ITSELF, &types),
                MESHEM_BAD_ENTRY, i % 3);
    }
}

static void refusals_of_updates(void) {
    const struct chunk right = chunk_of(ground);
    const struct types types = types_of(0);
    const struct mesh lists = lists_of(0);
    const enum meshem_tested tested = MESHEM_TESTED_ITSELF;
    struct chunk chunk;
    struct types other;
    struct mesh room;
    struct bytes ragged;
    chunk = right, chunk.height = 0;
    refused("height", mend(lists, FRESH, &chunk, two_entries, tested, &types), MESHEM_BAD_SIZE, 0);
    other = types, other.kinds.len--;
    refused("kinds' length", mend(lists, FRESH, &right, two_entries, tested, &other), MESHEM_BAD_TYPES, 255);
    other = types, other.covers.len--;
    refused("sets' length", mend(lists, FRESH, &right, two_entries, tested, &other), MESHEM_BAD_TYPES, 255);
    other = types, other.d[2] = INFINITY;
    refused("d", mend(lists, FRESH, &right, two_entries, tested, &other), MESHEM_BAD_NUMBER, 0);
    other = types, other.centre[0] = 20;
    refused("centre", mend(lists, FRESH, &right, two_entries, tested, &other), MESHEM_NOT_A_CUBE, ROCK);
    room = lists, room.slots.len = CELLS * 6 - 1;
    refused("slots", mend(room, FRESH, &right, two_entries, tested, &types), MESHEM_SHORT_ROOM, 0);
    refused("count", mend(lists, QUADS + 1, &right, two_entries, tested, &types), MESHEM_BAD_COUNT, 0);
    refused("too few", mend(lists, FRESH - 1, &right, two_entries, tested, &types), MESHEM_BAD_LINKS, FRESH - 1);
    ragged = two_entries, ragged.len--;
    refused("ragged end", mend(lists, FRESH, &right, ragged, tested, &types), MESHEM_BAD_ENTRY, 1);
    ragged.len = 12;
    refused("entry of 12 bytes", mend(lists, FRESH, &right, ragged, tested, &types), MESHEM_BAD_ENTRY, 0);
    damaged("a link", now.links + 4, MESHEM_BAD_LINKS, 4);
    damaged("a triangle", now.triangles + 6 * 3 + 2, MESHEM_BAD_TRIANGLES, 3);
}

/* a refused call changes nothing: the mesh is as fresh after all of them */
static void refusals(void) {
    build_cubes(0);
    mesh_afresh(CULLING, 0);
    refusals_of_cubes(), refusals_of_meshes(), refusals_of_updates(), refusals_of_entries();
    hold_mesh("after refusals", fresh, FRESH, FRESH, ground, 0);
}

static void numbers(void) {
    for (uint32_t number = 0; number < 17; number++) {
        answers_held++;
        if (strcmp(name(number), NAMES[number]) == 0) continue;
        differences++;
        printf("%u is %s, and document 01's is %s\n", number, name(number), NAMES[number]);
    }
}

/* Wrong on purpose, and so to be told: a first and a last word, and each number of an answer. How many of them are. */
enum { WRONG = 6 };
static unsigned wrong_told(void) {
    static const uint32_t due[3] = {1, 2, 3}, first[3] = {4, 2, 3}, last[3] = {1, 2, 4};
    const struct answer told = {MESHEM_NO_ROOM, 1, 22, 3};
    unsigned others = differences;
    hold("wrong on purpose", first, due, 3);
    hold("wrong on purpose", last, due, 3);
    answered("wrong on purpose", told, MESHEM_BAD_COUNT, 1, 22, 3);
    answered("wrong on purpose", told, MESHEM_NO_ROOM, 2, 22, 3);
    answered("wrong on purpose", told, MESHEM_NO_ROOM, 1, 23, 3);
    answered("wrong on purpose", told, MESHEM_NO_ROOM, 1, 22, 4);
    unsigned found = differences - others;
    differences = others;
    return found;
}

int main(void) {
    numbers();
    for (uint32_t coloured = 0; coloured < 2; coloured++) {
        build_cubes(coloured);
        mesh_naively(coloured);
        mesh_and_check(coloured);
        wrong_vertices(coloured);
        for (enum meshem_tested tested = MESHEM_TESTED_OPPOSITE; tested <= MESHEM_TESTED_ITSELF; tested++) {
            mend_and_check(&added_and_broken, tested, coloured);
            mend_and_check(&replaced, tested, coloured);
            hide_and_draw(tested, coloured);
        }
    }
    refusals();
    printf("%u words and %u answers held to document 01, %u differ\n", words_held, answers_held, differences);
    return differences > 0 || wrong_told() != WRONG;
}
