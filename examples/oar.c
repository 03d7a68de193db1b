/* An oar whose blade is shaped from a planed blank while the oar is feathered, as one sheet of A4 to print: the blade
   at five times, and three of its sections at full size to cut templates from. The SVG goes to stdout; every line of
   the oar is drawn from vertices that were baked. `oar text` writes the scene as bracketed text instead (docs/TEXT.md),
   which asks for the blade at time 0.5. */
#include "blade.h"
#include "sheet.h"

#include <stdio.h>
#include <stdlib.h>

enum { LOOM_NODE = 1, BLADE_NODE = 2 };

/* ---- the scene in tables ---- */

typedef struct {
    uint32_t words[160];
    float floats[48 + 6 * LOOM + 12 * BLADE];
    mesh3d_scene lent;
} tables;

static uint32_t put_words(tables *t, const uint32_t *words, size_t count) {
    size_t at = t->lent.words_len;
    memcpy(t->words + at, words, count * sizeof *words);
    t->lent.words_len += count;
    return (uint32_t)at;
}

static uint32_t put_floats(tables *t, const float *floats, size_t count) {
    size_t at = t->lent.floats_len;
    memcpy(t->floats + at, floats, count * sizeof *floats);
    t->lent.floats_len += count;
    return (uint32_t)at;
}

static mesh3d_part put_table(tables *t, const uint32_t *words, size_t records, size_t size) {
    mesh3d_part part = {put_words(t, words, records * size), records};
    return part;
}

/* The root carries the loom, and the loom the blade. */
static void put_graph(tables *t) {
    static const float still[10] = {0, 0, 0, 0, 0, 0, 1, 1, 1, 1};
    static const float at_end[10] = {LOOM_LENGTH, 0, 0, 0, 0, 0, 1, 1, 1, 1};
    static const uint32_t ids[3] = {0, LOOM_NODE, BLADE_NODE};
    uint32_t list = put_words(t, ids, 3), here = put_floats(t, still, 10), end = put_floats(t, at_end, 10);
    const uint32_t nodes[3][16] = {{0, here, list + 1, 1}, {0, here, list + 2, 1, 1, 0}, {0, end, 0, 0, 1, 1}};
    t->lent.header.graph.roots = (mesh3d_part){list, 1};
    t->lent.header.graph.nodes = put_table(t, nodes[0], 3, 16);
}

/* A quarter turn of the loom about its axis, and the blade's one morph weight from 0 to 1. */
static void put_channels(tables *t) {
    enum { ROTATION = 1, WEIGHTS = 3 };
    static const float line[2] = {0, 1}, turns[8] = {0, 0, 0, 1, 0.70710678f, 0, 0, 0.70710678f};
    uint32_t keys = put_floats(t, line, 2), turn = put_floats(t, turns, 8);
    const uint32_t channels[2][8] = {{LOOM_NODE, ROTATION, MESH3D_QUAT, MESH3D_LINEAR, keys, 2, turn, 2},
                                     {BLADE_NODE, WEIGHTS, MESH3D_SCALAR, MESH3D_LINEAR, keys, 2, keys, 2}};
    t->lent.header.channels = put_table(t, channels[0], 2, 8);
}

/* The loom, and the blank with one target: what makes it the finished blade. */
static void put_meshes(tables *t) {
    static vec3 points[BLADE], normals[BLADE], to_points[BLADE], to_normals[BLADE];
    static const uint32_t meshes[2][4] = {{0, 1, 0, 0}, {1, 1, 0, 1}};
    static const float weight = 0;
    make_loom(points, normals);
    uint32_t lp = put_floats(t, points[0], 3 * LOOM), ln = put_floats(t, normals[0], 3 * LOOM);
    make_blade(false, points, normals);
    make_blade(true, to_points, to_normals);
    for (size_t i = 0; i < BLADE; i++)
        for (size_t j = 0; j < 3; j++) to_points[i][j] -= points[i][j], to_normals[i][j] -= normals[i][j];
    uint32_t bp = put_floats(t, points[0], 3 * BLADE), bn = put_floats(t, normals[0], 3 * BLADE);
    uint32_t tp = put_floats(t, to_points[0], 3 * BLADE), tn = put_floats(t, to_normals[0], 3 * BLADE);
    const uint32_t primitives[2][16] = {{lp, LOOM, 1, ln, LOOM}, {bp, BLADE, 1, bn, BLADE, [15] = 1}};
    const uint32_t target[12] = {1, tp, BLADE, 1, tn, BLADE};
    t->lent.header.meshes.meshes = put_table(t, meshes[0], 2, 4);
    t->lent.header.meshes.primitives = put_table(t, primitives[0], 2, 16);
    t->lent.header.meshes.targets = put_table(t, target, 1, 12);
    t->lent.mesh_weights = &weight;
    t->lent.mesh_weights_len = 1;
}

static const mesh3d_scene *make_scene(void) {
    static tables t;
    t.lent.words = t.words;
    t.lent.floats = t.floats;
    put_graph(&t);
    put_channels(&t);
    put_meshes(&t);
    return &t.lent;
}

/* ---- the bakes ---- */

static void refuse(const mesh3d_scene *scene, uint32_t number) {
    char text[128];
    fprintf(stderr, "oar: %s\n", mesh3d_refusal_text(number));
    if (number == MESH3D_SHORT_STOCK || number == MESH3D_OVER_SIZE) {
        mesh3d_fault_text(mesh3d_scene_fault(scene), text, sizeof text);
        fprintf(stderr, "oar: %s\n", text);
    }
    exit(1);
}

static void *room_for(size_t count, size_t size) {
    void *room = calloc(count ? count : 1, size);
    if (!room) {
        fprintf(stderr, "oar: there is no memory left\n");
        exit(1);
    }
    return room;
}

/* From the world into the node's own frame: the inverse of a rotation is its transpose. */
static void take_back(const float world[16], const vec3 p, vec3 out) {
    float x = p[0] - world[3], y = p[1] - world[7], z = p[2] - world[11];
    for (size_t j = 0; j < 3; j++) out[j] = world[j] * x + world[4 + j] * y + world[8 + j] * z;
}

static void bake(const mesh3d_scene *scene, uint32_t node, float time, baked *out) {
    mesh3d_room need = mesh3d_scene_room(scene, node);
    if (need.number != MESH3D_ACCEPTED) refuse(scene, need.number);
    uint32_t *words = room_for(need.marks + need.walk + need.places, sizeof *words);
    float *floats = room_for(need.slots + need.worlds, sizeof *floats), *worlds = floats + need.slots;
    mesh3d_scratch scratch = {words, need.marks, floats, need.slots, words + need.marks, need.walk,
                              words + need.marks + need.walk, need.places, worlds, need.worlds};
    mesh3d_vertices output = {out->points[0], 3 * BLADE, out->normals[0], 3 * BLADE, NULL, 0};
    mesh3d_baked b = mesh3d_scene_bake(scene, node, time, &scratch, &output);
    if (b.number != MESH3D_ACCEPTED) refuse(scene, b.number);
    for (size_t i = 0; i < b.positions / 3; i++) take_back(worlds + 16 * node, out->points[i], out->own[i]);
    free(words);
    free(floats);
}

/* ---- what is written ---- */

static void write_sheet(const mesh3d_scene *scene) {
    static baked loom[TIMES], blade[TIMES];
    for (size_t i = 0; i < TIMES; i++) {
        bake(scene, LOOM_NODE, 0.25f * (float)i, &loom[i]);
        bake(scene, BLADE_NODE, 0.25f * (float)i, &blade[i]);
    }
    put_sheet(loom, blade);
}

static void write_text(const mesh3d_scene *scene) {
    mesh3d_text_written need = mesh3d_scene_text_length(scene, BLADE_NODE, 0.5f);
    if (need.number != MESH3D_ACCEPTED) refuse(scene, need.number);
    char *text = room_for(need.length, 1);
    mesh3d_scene_write(scene, BLADE_NODE, 0.5f, text, need.length);
    fwrite(text, 1, need.length, stdout);
    free(text);
}

int main(int argc, char **argv) {
    bool as_text = argc == 2 && strcmp(argv[1], "text") == 0;
    if (argc > 1 && !as_text) {
        fprintf(stderr, "usage: oar [text]\n");
        return 2;
    }
    if (as_text) write_text(make_scene());
    else write_sheet(make_scene());
    if (fflush(stdout) != 0 || ferror(stdout)) {
        fprintf(stderr, "oar: the output could not be written\n");
        return 1;
    }
    return 0;
}
