/*
 * The C interface of Meshem. Every float is its 32-bit pattern.
 *
 * A list is a pointer and then a count of elements. A list of no elements may come with any pointer, NULL too. Every
 * other list is that many elements of memory, aligned for their type. The thin pointers at a call's end are its
 * outputs: they are not NULL, are aligned, and are always written.
 *
 * Lists do not overlap, by Rust's rule: what a call writes (the lists without `const`, and the outputs) shares no
 * memory with another list or output of the call. Lists that are only read may share memory with one another.
 *
 * A mesh is seven lists. Four hold the attributes of its vertices, of each quad four vertices in the same order:
 * positions and normals have 12 words a quad, uvs 8, colours 16. Triangles have 6 words a quad, links 1, slots 6 a cell.
 * The room in quads is the least that a list holds, slots aside. Without colour the colour list is neither read nor
 * written nor counted; it may have any length, 0 too. A cube's vertex has its attributes together, 8 floats or 12, in
 * `out` as in the registry's `cubes`.
 *
 * Within these rules each call takes every number, length and content. It returns 0 or the number of a refusal. After
 * success `place` is 0; after a refusal the counts are 0 and nothing else has changed, but for an update's
 * MESHEM_NO_ROOM, which keeps the entries before `place` and tells their counts. meshem_abi alone returns a level.
 */
#ifndef MESHEM_H
#define MESHEM_H

#include <stddef.h>
#include <stdint.h>

#ifdef __cplusplus
extern "C" {
#endif

/*
 * The level of these declarations; meshem_abi returns the library's. Where they differ a call may misread what it is
 * given, so a program compares the two before its first call. A library of level 1 lacks meshem_abi.
 */
#define MESHEM_ABI 5u
uint32_t meshem_abi(void);

enum meshem_refusal {
    MESHEM_DONE = 0,
    MESHEM_BAD_FILE = 1,
    MESHEM_BAD_SIZE = 2,
    MESHEM_BAD_TYPES = 3,
    MESHEM_BAD_NUMBER = 4,
    MESHEM_BAD_ATLAS = 5,
    MESHEM_NOT_A_CUBE = 6,
    MESHEM_BAD_FACE = 7,
    MESHEM_BAD_CELL = 8,
    MESHEM_SHORT_ROOM = 9,
    MESHEM_BAD_COUNT = 10,
    MESHEM_BAD_LINKS = 11,
    MESHEM_BAD_TRIANGLES = 12,
    MESHEM_BAD_ENTRY = 13,
    MESHEM_NO_ROOM = 14,
    MESHEM_WRONG_SET = 15,
    MESHEM_WRONG_VERTEX = 16
};

/*
 * The side of a voxel that comes, by Added or Replaced, which decides whether the neighbour at face i loses the quad
 * facing it: the opposite of i, as Meshem does, or i itself, as meshem_check_mesh wants it. The two differ only for a
 * voxel that does not cover opposite sides alike, such as a half-height slab.
 */
enum meshem_tested {
    MESHEM_TESTED_OPPOSITE = 0,
    MESHEM_TESTED_ITSELF = 1
};

/*
 * An entry of a log has 16 bytes: the cell in four, the lowest first, the change, the type, six in the order of the
 * faces (Top, Bottom, Right, Left, Back, Forward), the former type, and three zeros. For Broken, Added and Replaced the
 * six are the neighbours' types, 255 outside the grid. For Sides they say what becomes of the cell's own sides: those to
 * hide lose their quads, then those to draw that have none get one, of the entry's type if that is a NormalCube.
 *
 * Replaced does what Broken with the former type and then Added with the type do, both with its cell and neighbours; but
 * if the second finds no room, the first is not done either. Its former type is a type, that of Broken is the entry's
 * type once more, that of Added and Sides 255. Another one, or a nonzero byte past it, is refused (MESHEM_BAD_ENTRY).
 *
 * A log does not say its level. Below level 5 an entry had 12 bytes: the last four were not there. Below level 4 the
 * changes were Broken, Added, 2 CullFaces and 3 AddFaces, and the six bytes of each neighbours. Such a log is refused
 * (MESHEM_BAD_ENTRY), unless its bytes happen to be entries of 16, which takes a number of entries that four divides.
 * tools/convert-log converts such logs.
 *
 * Two logs touch if a cell of one is a cell of the other, or its neighbour across a face. Two that touch nowhere, each
 * honest on the grid as it is, may be put one after the other in either order, or mixed. README, "Two crews, one chunk",
 * says what that asks for, what is proved of it, and what to do with two that touch.
 */
enum meshem_change {
    MESHEM_BROKEN = 0,
    MESHEM_ADDED = 1,
    MESHEM_SIDES = 2,
    MESHEM_REPLACED = 3
};

enum meshem_side {
    MESHEM_KEEP = 0,
    MESHEM_HIDE = 1,
    MESHEM_DRAW = 2
};

/* Writes the 24 vertices of one cube at the start of `out`. */
uint32_t meshem_generate_voxel_mesh(
    uint32_t dx, uint32_t dy, uint32_t dz,              /* d: f32 bits */
    uint32_t atlas_width, uint32_t atlas_height,
    const uint32_t *texture, size_t texture_len,        /* face, a, b; six times */
    uint32_t cx, uint32_t cy, uint32_t cz,              /* centre: f32 bits */
    uint32_t padding,                                   /* f32 bits */
    uint32_t coloured,                                  /* 0 no, else yes */
    uint32_t colour, uint32_t alpha,                    /* f32 bits, any */
    uint32_t *out, size_t out_len,                      /* 24 vertices */
    uint64_t *place);

/* Writes the mesh of a grid into the seven lists, and its count of quads. */
uint32_t meshem_mesh_grid(
    uint32_t width, uint32_t height, uint32_t length,
    const uint8_t *outer, size_t outer_len,             /* face numbers */
    const uint8_t *grid, size_t grid_len,
    const uint8_t *kinds, size_t kinds_len,
    const uint8_t *covers, size_t covers_len,           /* side sets */
    const uint32_t *cubes, size_t cubes_len,            /* the registry's floats */
    uint32_t coloured,                                  /* 0 no, else yes */
    uint32_t dx, uint32_t dy, uint32_t dz,
    uint32_t cx, uint32_t cy, uint32_t cz,
    uint32_t algorithm,                                 /* 0 Naive, else Culling */
    uint32_t *positions, size_t positions_len,          /* 12 a quad */
    uint32_t *normals, size_t normals_len,              /* 12 a quad */
    uint32_t *uvs, size_t uvs_len,                      /* 8 a quad */
    uint32_t *colours, size_t colours_len,              /* 16 a quad, with colour */
    uint32_t *triangles, size_t triangles_len,
    uint32_t *links, size_t links_len,
    uint32_t *slots, size_t slots_len,
    uint64_t *place, uint64_t *quads);

/* Mends a mesh in place by a log, and counts its quads and those that moved. */
uint32_t meshem_update_mesh(
    uint32_t *positions, size_t positions_len,          /* 12 a quad */
    uint32_t *normals, size_t normals_len,              /* 12 a quad */
    uint32_t *uvs, size_t uvs_len,                      /* 8 a quad */
    uint32_t *colours, size_t colours_len,              /* 16 a quad, with colour */
    uint32_t *triangles, size_t triangles_len,
    uint32_t *links, size_t links_len,
    uint32_t *slots, size_t slots_len,
    uint64_t count,                                     /* quads before the log */
    uint32_t width, uint32_t height, uint32_t length,
    const uint8_t *log, size_t log_len,                 /* 16 bytes an entry */
    uint32_t tested,                                    /* 0 the opposite of i, else i itself */
    const uint8_t *kinds, size_t kinds_len,
    const uint8_t *covers, size_t covers_len,           /* side sets */
    const uint32_t *cubes, size_t cubes_len,            /* the registry's floats */
    uint32_t coloured,                                  /* 0 no, else yes */
    uint32_t dx, uint32_t dy, uint32_t dz,
    uint32_t cx, uint32_t cy, uint32_t cz,
    uint64_t *place, uint64_t *quads, uint64_t *moved);

/* Says whether the seven lists hold the culled mesh of a grid with `count` quads. */
uint32_t meshem_check_mesh(
    uint32_t width, uint32_t height, uint32_t length,
    const uint8_t *outer, size_t outer_len,             /* face numbers */
    const uint8_t *grid, size_t grid_len,
    const uint8_t *kinds, size_t kinds_len,
    const uint8_t *covers, size_t covers_len,           /* side sets */
    const uint32_t *cubes, size_t cubes_len,            /* the registry's floats */
    uint32_t coloured,                                  /* 0 no, else yes */
    uint32_t dx, uint32_t dy, uint32_t dz,
    uint32_t cx, uint32_t cy, uint32_t cz,
    const uint32_t *positions, size_t positions_len,    /* 12 a quad */
    const uint32_t *normals, size_t normals_len,        /* 12 a quad */
    const uint32_t *uvs, size_t uvs_len,                /* 8 a quad */
    const uint32_t *colours, size_t colours_len,        /* 16 a quad, with colour */
    const uint32_t *triangles, size_t triangles_len,
    const uint32_t *links, size_t links_len,
    const uint32_t *slots, size_t slots_len,
    uint64_t count,                                     /* quads of the mesh */
    uint64_t *place);

#ifdef __cplusplus
}
#endif

#endif
