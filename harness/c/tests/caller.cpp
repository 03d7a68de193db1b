// A caller in C++: the small scene of docs/TABLES.md, baked at half its time.
#include "mesh3d.h"

#include <cstdio>
#include <vector>

namespace {

// Of docs/TABLES.md, "A small scene".
const std::vector<uint32_t> words = {
    0, 0,  44, 1, 0, 0, 0, 0, 0, 0, 0, 0, 0, 0, 0, 0, // node 0
    1, 10, 0,  0, 1, 0, 0, 0, 0, 0, 0, 0, 0, 0, 0, 0, // node 1
    0, 0,  0,  1, 26, 2, 28, 2,                       // channel 0
    0, 1,  0,  0,                                     // mesh 0
    1,                                                // child of 0
    0,                                                // roots
    34, 3, 0,  0, 0, 0, 0, 0, 0, 0, 0, 0, 0, 0, 0, 0, // primitive 0
};
const std::vector<float> floats = {
    0, 0, 0, 0, 0, 0, 1, 1, 1, 1,                   // parts of node 0
    1, 0, 0, 2, 0, 1, 0, 0, 0, 0, 1, 0, 0, 0, 0, 1, // matrix of node 1
    0, 1,                                           // keys
    0, 0, 0, 4, 0, 0,                               // values
    0, 0, 0, 1, 0, 0, 0, 1, 0,                      // positions
};

mesh3d_scene scene() {
    mesh3d_scene s = {};
    s.words = words.data();
    s.words_len = words.size();
    s.floats = floats.data();
    s.floats_len = floats.size();
    s.header.graph = {{0, 2}, {45, 1}};
    s.header.channels = {32, 1};
    s.header.meshes.meshes = {40, 1};
    s.header.meshes.primitives = {46, 1};
    return s;
}

} // namespace

int main() {
    const mesh3d_scene lent = scene();
    const mesh3d_room need = mesh3d_scene_room(&lent, 1);
    if (need.number != MESH3D_ACCEPTED) {
        std::printf("caller: %s\n", mesh3d_refusal_text(need.number));
        return 1;
    }
    std::vector<uint32_t> marks(need.marks), walk(need.walk), places(need.places);
    std::vector<float> slots(need.slots), worlds(need.worlds), positions(need.positions);
    const mesh3d_scratch scratch = {marks.data(),  marks.size(),  slots.data(),  slots.size(),  walk.data(),
                                    walk.size(),   places.data(), places.size(), worlds.data(), worlds.size()};
    const mesh3d_vertices output = {positions.data(), positions.size(), nullptr, 0, nullptr, 0};
    const mesh3d_baked baked = mesh3d_scene_bake(&lent, 1, 0.5f, &scratch, &output);
    const float right[9] = {4, 0, 0, 5, 0, 0, 4, 1, 0};
    size_t differing = baked.number != MESH3D_ACCEPTED || baked.positions != 9;
    for (size_t i = 0; i < positions.size() && i < 9; i++) differing += positions[i] != right[i];
    std::printf("caller in C++: %zu differ\n", differing);
    return differing != 0;
}
