/* The library's calls on two threads at once: each bakes its own scene in its own room again and again, and every
   answer has the bits of a call on one thread. */
#include "scene.h"

#include <pthread.h>
#include <stdio.h>

enum { ROUNDS = 20000 };

typedef struct {
    uint32_t marks[16], walk[8], places[4];
    float slots[40], worlds[64], positions[12], normals[12], tangents[16];
} room;

/* What a thread works on: the scene, the node that it bakes, and how often an answer was another one. */
typedef struct {
    built_scene built;
    uint32_t node;
    room alone, again;
    size_t differing;
} work;

static mesh3d_baked bake(const work *w, float time, room *r) {
    mesh3d_scratch scratch = {r->marks, 16, r->slots, 40, r->walk, 8, r->places, 4, r->worlds, 64};
    mesh3d_vertices output = {r->positions, 12, r->normals, 12, r->tangents, 16};
    return mesh3d_scene_bake(&w->built.lent, w->node, time, &scratch, &output);
}

static void *rounds(void *given) {
    work *w = (work *)given;
    int i;
    for (i = 0; i < ROUNDS; i++) {
        memset(&w->again, 0, sizeof w->again);
        if (bake(w, 0.75f, &w->again).number != MESH3D_ACCEPTED || mesh3d_scene_number(&w->built.lent) != 0 ||
            memcmp(&w->again, &w->alone, sizeof w->alone) != 0)
            w->differing++;
    }
    return NULL;
}

int main(void) {
    static work works[2];
    static const uint32_t nodes[2] = {NODE_SKINNED, NODE_PLAIN};
    pthread_t threads[2];
    int i;
    for (i = 0; i < 2; i++) {
        build(&works[i].built);
        works[i].built.floats[0] += (float)i;
        works[i].node = nodes[i];
        if (bake(&works[i], 0.75f, &works[i].alone).number != MESH3D_ACCEPTED) {
            puts("threads: refused");
            return 1;
        }
    }
    for (i = 0; i < 2; i++) {
        if (pthread_create(&threads[i], NULL, rounds, &works[i])) {
            puts("threads: no thread");
            return 2;
        }
    }
    for (i = 0; i < 2; i++) pthread_join(threads[i], NULL);
    printf("threads: %d bakes on two threads, %zu differ\n", 2 * ROUNDS, works[0].differing + works[1].differing);
    return works[0].differing + works[1].differing != 0;
}
