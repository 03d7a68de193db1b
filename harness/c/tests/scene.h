/* A small scene for the callers: four nodes, two meshes, a skin, morph targets with an in-between, and four channels,
   of which the last is aimed past the last node. Each slice has another length and other contents. */
#ifndef SCENE_H
#define SCENE_H

#include "mesh3d.h"

#include <string.h>

enum { NODE_SKINNED = 2, NODE_PLAIN = 3 };

typedef struct {
    uint32_t words[400];
    float floats[400];
    float node_weights[8];
    float mesh_weights[8];
    mesh3d_scene lent;
} built_scene;

/* Copies a list to the end of the words or floats, and answers where it starts. */
static inline uint32_t put_words(built_scene *s, const uint32_t *list, size_t count) {
    size_t at = s->lent.words_len;
    memcpy(s->words + at, list, count * sizeof *list);
    s->lent.words_len = at + count;
    return (uint32_t)at;
}
static inline uint32_t put_floats(built_scene *s, const float *list, size_t count) {
    size_t at = s->lent.floats_len;
    memcpy(s->floats + at, list, count * sizeof *list);
    s->lent.floats_len = at + count;
    return (uint32_t)at;
}
/* So many floats, none like another. */
static inline uint32_t put_varied(built_scene *s, size_t count, float from) {
    size_t at = s->lent.floats_len, i;
    for (i = 0; i < count; i++) s->floats[at + i] = from + 0.0625f * (float)i;
    s->lent.floats_len = at + count;
    return (uint32_t)at;
}
#define PUT_WORDS(s, ...) \
    put_words(s, (const uint32_t[]){__VA_ARGS__}, sizeof((const uint32_t[]){__VA_ARGS__}) / sizeof(uint32_t))
#define PUT_FLOATS(s, ...) \
    put_floats(s, (const float[]){__VA_ARGS__}, sizeof((const float[]){__VA_ARGS__}) / sizeof(float))

static inline mesh3d_part part(uint32_t at, size_t count) {
    mesh3d_part p = {at, count};
    return p;
}

static inline void put_graph(built_scene *s) {
    uint32_t loom = PUT_FLOATS(s, 0.5f, 0, 0, 0, 0, 0, 1, 1, 1, 1);
    uint32_t blade = PUT_FLOATS(s, 1, 0, 0, 2, 0, 1, 0, 0.25f, 0, 0, 1, 0, 0, 0, 0, 1);
    uint32_t tip = PUT_FLOATS(s, 0, 0.5f, 0, 0, 0, 0.6f, 0.8f, 2, 1, 1);
    uint32_t of_loom = PUT_WORDS(s, 1, NODE_SKINNED), of_blade = PUT_WORDS(s, NODE_PLAIN);
    uint32_t nodes = PUT_WORDS(s, 0, loom, of_loom, 2, 0, 0, 0, 0, 0, 0, 0, 0, 0, 0, 0, 0);
    PUT_WORDS(s, 1, blade, of_blade, 1, 0, 0, 0, 0, 0, 0, 0, 0, 0, 0, 0, 0);
    PUT_WORDS(s, 0, tip, 0, 0, 1, 0, 1, 0, 1, 1, 2, 0, 0, 0, 0, 0);
    PUT_WORDS(s, 0, loom, 0, 0, 1, 1, 0, 0, 0, 0, 0, 0, 0, 0, 0, 0);
    s->lent.header.graph.nodes = part(nodes, 4);
    s->lent.header.graph.roots = part(PUT_WORDS(s, 0), 1);
}

static inline void put_channels(built_scene *s) {
    uint32_t keys = PUT_FLOATS(s, 0, 1), turned = PUT_FLOATS(s, 0, 0, 0, 1, 0.6f, 0, 0, 0.8f);
    uint32_t moved = PUT_FLOATS(s, 0, 0, 0, 0, 4, 0), grown = PUT_FLOATS(s, 1, 1, 1, 1, 3, 1);
    uint32_t channels = PUT_WORDS(s, 1, 1, MESH3D_QUAT, MESH3D_LINEAR, keys, 2, turned, 2);
    PUT_WORDS(s, 0, 0, MESH3D_VEC3, MESH3D_STEP, keys, 2, moved, 2);
    PUT_WORDS(s, NODE_PLAIN, 2, MESH3D_VEC3, MESH3D_LINEAR, keys, 2, grown, 2);
    PUT_WORDS(s, 9, 0, MESH3D_VEC3, MESH3D_LINEAR, keys, 2, moved, 2);
    s->lent.header.channels = part(channels, 4);
}

static inline void put_meshes(built_scene *s) {
    uint32_t p0 = put_varied(s, 12, 0.5f), n0 = put_varied(s, 12, -1), t0 = put_varied(s, 16, 2);
    uint32_t joints = PUT_WORDS(s, 0, 1, 0, 0, 1, 0, 0, 0, 0, 1, 0, 0, 7, 1, 0, 0);
    uint32_t weights = put_varied(s, 16, 0), p1 = put_varied(s, 9, 3), t1 = put_varied(s, 12, -2);
    uint32_t d0 = put_varied(s, 12, 0.125f), d1 = put_varied(s, 12, 0.25f), d2 = put_varied(s, 9, -0.5f);
    uint32_t half = PUT_FLOATS(s, 0.5f), between = PUT_WORDS(s, half, 1, d1, 4, 0, 0, 0, 0);
    uint32_t targets = PUT_WORDS(s, 1, d0, 4, 0, 0, 0, 0, 0, 0, 0, 1, 0), primitives, meshes;
    PUT_WORDS(s, 0, 0, 0, 1, d1, 4, 0, 0, 0, 0, 0, 0);
    PUT_WORDS(s, 1, d2, 3, 0, 0, 0, 0, 0, 0, 0, 0, 0);
    primitives = PUT_WORDS(s, p0, 4, 1, n0, 4, 1, t0, 4, 1, joints, 4, 1, weights, 4, 0, 2);
    PUT_WORDS(s, p1, 3, 0, 0, 0, 1, t1, 3, 0, 0, 0, 0, 0, 0, 2, 1);
    meshes = PUT_WORDS(s, 0, 1, 0, 2);
    PUT_WORDS(s, 1, 1, 2, 1);
    s->lent.header.meshes.in_betweens = part(between, 1);
    s->lent.header.meshes.targets = part(targets, 3);
    s->lent.header.meshes.primitives = part(primitives, 2);
    s->lent.header.meshes.meshes = part(meshes, 2);
}

static inline void put_skins(built_scene *s) {
    uint32_t binds = PUT_FLOATS(s, 1, 0, 0, 0, 0, 1, 0, 0, 0, 0, 1, 0, 0, 0, 0, 1);
    uint32_t joints = PUT_WORDS(s, 0, 1);
    PUT_FLOATS(s, 1, 0, 0, -2, 0, 1, 0, 0, 0, 0, 1, 0.5f, 0, 0, 0, 1);
    s->lent.header.skins.skins = part(PUT_WORDS(s, 0, 0, 0, 0), 1);
    s->lent.header.skins.skeletons = part(PUT_WORDS(s, joints, 2, binds, 2), 1);
}

static inline void build(built_scene *s) {
    static const float own[] = {9, 0.25f, 0.75f}, shared[] = {0.1f, 0.2f, 0.625f, 8};
    memset(s, 0, sizeof *s);
    put_graph(s);
    put_channels(s);
    put_meshes(s);
    put_skins(s);
    memcpy(s->node_weights, own, sizeof own);
    memcpy(s->mesh_weights, shared, sizeof shared);
    s->lent.words = s->words;
    s->lent.floats = s->floats;
    s->lent.node_weights = s->node_weights;
    s->lent.node_weights_len = 3;
    s->lent.mesh_weights = s->mesh_weights;
    s->lent.mesh_weights_len = 4;
}

#endif
