/* Node 0 moves from x = 0 to x = 4 and carries node 1, which stands at x = 2 and has a triangle:
   its vertices at time 0.5. docs/TABLES.md, "A small scene", goes through the tables. */
#include <mesh3d.h>
#include <stdio.h>

static const uint32_t words[62] = {
    0, 0,  44, 1, 0,  0, 0,  0, 0, 0, 0, 0, 0, 0, 0, 0, /* node 0: parts, a child in word 44 */
    1, 10, 0,  0, 1,  0, 0,  0, 0, 0, 0, 0, 0, 0, 0, 0, /* node 1: a matrix at float 10, mesh 0 */
    0, 0,  0,  1, 26, 2, 28, 2,                         /* channel 0: moves node 0, Linear */
    0, 1,  0,  0,                                       /* mesh 0: primitive 0 */
    1, 0,                                               /* the child of node 0, and the root */
    34, 3, 0,  0, 0,  0, 0,  0, 0, 0, 0, 0, 0, 0, 0, 0, /* primitive 0: positions at float 34 */
};
static const float floats[43] = {
    0, 0, 0,  0, 0, 0, 1,  1, 1, 1,                     /* translation, rotation, scale */
    1, 0, 0, 2,  0, 1, 0, 0,  0, 0, 1, 0,  0, 0, 0, 1,  /* a matrix, row by row */
    0, 1,                                               /* two keys */
    0, 0, 0,  4, 0, 0,                                  /* and their values */
    0, 0, 0,  1, 0, 0,  0, 1, 0,                        /* three positions */
};

static const mesh3d_header header = {
    {{0, 2}, {45, 1}},                                  /* nodes and roots: at which word, and how many */
    {32, 1},                                            /* channels */
    {{40, 1}, {46, 1}, {0, 0}, {0, 0}},                 /* meshes, primitives, targets, in-betweens */
    {{0, 0}, {0, 0}},                                   /* skins, skeletons */
};

int main(void) {
    mesh3d_scene scene = {words, 62, floats, 43, NULL, 0, NULL, 0, header};
    uint32_t marks[8], walk[4], places[2];              /* room for two nodes and two entries: */
    float slots[20], worlds[32], positions[9];          /* mesh3d_scene_room tells how much */
    mesh3d_scratch scratch = {marks, 8, slots, 20, walk, 4, places, 2, worlds, 32};
    mesh3d_vertices output = {positions, 9, NULL, 0, NULL, 0};
    mesh3d_baked baked = mesh3d_scene_bake(&scene, 1, 0.5f, &scratch, &output);
    if (baked.number != MESH3D_ACCEPTED) {
        puts(mesh3d_refusal_text(baked.number));
        return 1;
    }
    for (const float *p = positions; p < positions + baked.positions; p += 3)
        printf("%g %g %g\n", (double)p[0], (double)p[1], (double)p[2]);
    return 0;
}
