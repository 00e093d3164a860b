/*
 * The four calls of meshem.h with their arguments gathered: a voxel, the types, a chunk and the lists of its mesh. A
 * program that calls more than once writes the long argument lists in one place, as here.
 */
#ifndef CALLS_H
#define CALLS_H

#include <string.h>
#include "../include/meshem.h"

enum face { TOP, BOTTOM, RIGHT, LEFT, BACK, FORWARD, OUTSIDE = 255 };
enum kind { NOTHING, NORMAL_CUBE, CUSTOM_MESH };
enum change { BROKEN = MESHEM_BROKEN, ADDED = MESHEM_ADDED, SIDES = MESHEM_SIDES, REPLACED = MESHEM_REPLACED };
enum { ENTRY = 16, NO_FORMER = 255 }; /* an entry's bytes, and the former type of Added and Sides */
enum told_of_a_side { KEEP = MESHEM_KEEP, HIDE = MESHEM_HIDE, DRAW = MESHEM_DRAW };
enum algorithm { NAIVE, CULLING };

struct bytes {
    const uint8_t *at;
    size_t len;
};

struct words {
    uint32_t *at;
    size_t len;
};

/* One cube: its size and centre, and a tile of the atlas for each face. */
struct voxel {
    float d[3], centre[3];
    uint32_t atlas_width, atlas_height;
    struct words texture; /* face, a, b; six times */
    float padding, colour, alpha;
    uint32_t coloured;
};

/* The registry, and the size and centre of a cell. */
struct types {
    struct bytes kinds, covers;
    struct words cubes;
    float d[3], centre[3];
    uint32_t coloured;
};

struct chunk {
    uint32_t width, height, length;
    struct bytes outer, grid;
};

/* Without colour `colours` may be no list at all. */
struct mesh {
    struct words positions, normals, uvs, colours, triangles, links, slots;
};

struct answer {
    uint32_t number;
    uint64_t place, quads, moved;
};

static inline uint32_t bits(float number) {
    uint32_t word;
    memcpy(&word, &number, sizeof word);
    return word;
}

static inline struct answer build(const struct voxel *v, struct words out) {
    struct answer told = {0, 0, 0, 0};
    told.number = meshem_generate_voxel_mesh(
        bits(v->d[0]), bits(v->d[1]), bits(v->d[2]),
        v->atlas_width, v->atlas_height,
        v->texture.at, v->texture.len,
        bits(v->centre[0]), bits(v->centre[1]), bits(v->centre[2]),
        bits(v->padding),
        v->coloured,
        bits(v->colour), bits(v->alpha),
        out.at, out.len,
        &told.place);
    return told;
}

static inline struct answer mesh(const struct chunk *c, const struct types *t, enum algorithm algorithm, struct mesh m) {
    struct answer told = {0, 0, 0, 0};
    told.number = meshem_mesh_grid(
        c->width, c->height, c->length,
        c->outer.at, c->outer.len,
        c->grid.at, c->grid.len,
        t->kinds.at, t->kinds.len,
        t->covers.at, t->covers.len,
        t->cubes.at, t->cubes.len,
        t->coloured,
        bits(t->d[0]), bits(t->d[1]), bits(t->d[2]),
        bits(t->centre[0]), bits(t->centre[1]), bits(t->centre[2]),
        algorithm,
        m.positions.at, m.positions.len,
        m.normals.at, m.normals.len,
        m.uvs.at, m.uvs.len,
        m.colours.at, m.colours.len,
        m.triangles.at, m.triangles.len,
        m.links.at, m.links.len,
        m.slots.at, m.slots.len,
        &told.place, &told.quads);
    return told;
}

/* `count` is the mesh's number of quads; the chunk's grid and outer list are not asked for. */
static inline struct answer mend(struct mesh m, uint64_t count, const struct chunk *c, struct bytes log,
                                 enum meshem_tested tested, const struct types *t) {
    struct answer told = {0, 0, 0, 0};
    told.number = meshem_update_mesh(
        m.positions.at, m.positions.len,
        m.normals.at, m.normals.len,
        m.uvs.at, m.uvs.len,
        m.colours.at, m.colours.len,
        m.triangles.at, m.triangles.len,
        m.links.at, m.links.len,
        m.slots.at, m.slots.len,
        count,
        c->width, c->height, c->length,
        log.at, log.len,
        tested,
        t->kinds.at, t->kinds.len,
        t->covers.at, t->covers.len,
        t->cubes.at, t->cubes.len,
        t->coloured,
        bits(t->d[0]), bits(t->d[1]), bits(t->d[2]),
        bits(t->centre[0]), bits(t->centre[1]), bits(t->centre[2]),
        &told.place, &told.quads, &told.moved);
    return told;
}

static inline struct answer check(const struct chunk *c, const struct types *t, struct mesh m, uint64_t count) {
    struct answer told = {0, 0, 0, 0};
    told.number = meshem_check_mesh(
        c->width, c->height, c->length,
        c->outer.at, c->outer.len,
        c->grid.at, c->grid.len,
        t->kinds.at, t->kinds.len,
        t->covers.at, t->covers.len,
        t->cubes.at, t->cubes.len,
        t->coloured,
        bits(t->d[0]), bits(t->d[1]), bits(t->d[2]),
        bits(t->centre[0]), bits(t->centre[1]), bits(t->centre[2]),
        m.positions.at, m.positions.len,
        m.normals.at, m.normals.len,
        m.uvs.at, m.uvs.len,
        m.colours.at, m.colours.len,
        m.triangles.at, m.triangles.len,
        m.links.at, m.links.len,
        m.slots.at, m.slots.len,
        count,
        &told.place);
    return told;
}

/* What a call returned, by its name in the header. */
static inline const char *name(uint32_t number) {
    switch ((enum meshem_refusal)number) {
    case MESHEM_DONE: return "DONE";
    case MESHEM_BAD_FILE: return "BAD_FILE";
    case MESHEM_BAD_SIZE: return "BAD_SIZE";
    case MESHEM_BAD_TYPES: return "BAD_TYPES";
    case MESHEM_BAD_NUMBER: return "BAD_NUMBER";
    case MESHEM_BAD_ATLAS: return "BAD_ATLAS";
    case MESHEM_NOT_A_CUBE: return "NOT_A_CUBE";
    case MESHEM_BAD_FACE: return "BAD_FACE";
    case MESHEM_BAD_CELL: return "BAD_CELL";
    case MESHEM_SHORT_ROOM: return "SHORT_ROOM";
    case MESHEM_BAD_COUNT: return "BAD_COUNT";
    case MESHEM_BAD_LINKS: return "BAD_LINKS";
    case MESHEM_BAD_TRIANGLES: return "BAD_TRIANGLES";
    case MESHEM_BAD_ENTRY: return "BAD_ENTRY";
    case MESHEM_NO_ROOM: return "NO_ROOM";
    case MESHEM_WRONG_SET: return "WRONG_SET";
    case MESHEM_WRONG_VERTEX: return "WRONG_VERTEX";
    }
    return "no number of the header";
}

#endif
