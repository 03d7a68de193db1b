/* Scenes spoilt word by word, and what the library says of them; a text that is cut off; numbers past the tables. */
#include "scene.h"

#include <stdio.h>

static size_t failures;

static void expect_text(const char *found, const char *right) {
    if (strcmp(found, right) != 0) {
        failures++;
        printf("texts: \"%s\", but \"%s\" is right\n", found, right);
    }
}

/* The fault of a scene in which one word of a record is another number. */
static void expect_fault(mesh3d_part table, size_t width, size_t record, size_t word, uint32_t number,
                         const char *right) {
    static built_scene s;
    char text[120];
    build(&s);
    s.words[table.at + record * width + word] = number;
    mesh3d_fault_text(mesh3d_scene_fault(&s.lent), text, sizeof text);
    expect_text(text, right);
}

/* The fault of a scene in which a table is another part of the words. */
static void expect_table(size_t offset, size_t at, size_t count, const char *right) {
    static built_scene s;
    mesh3d_part moved = {at, count};
    char text[120];
    build(&s);
    memcpy((char *)&s.lent.header + offset, &moved, sizeof moved);
    mesh3d_fault_text(mesh3d_scene_fault(&s.lent), text, sizeof text);
    expect_text(text, right);
}

static void spoil(void) {
    static built_scene s;
    mesh3d_header h;
    build(&s);
    h = s.lent.header;
    expect_fault(h.graph.nodes, 16, 0, 0, 2,
                 "node 0, word 0: the form of its base transform is neither 0 (parts) nor 1 (matrix)");
    expect_fault(h.graph.nodes, 16, 1, 1, 100000, "node 1, word 1: its base transform leaves the floats");
    expect_fault(h.graph.nodes, 16, 2, 2, 100000, "node 2, word 2: its child list leaves the words");
    expect_fault(h.graph.nodes, 16, 3, 4, 2, "node 3, word 4: the mark of its mesh is neither 0 nor 1");
    expect_fault(h.graph.nodes, 16, 2, 9, 2, "node 2, word 9: its morph weights leave the node weights");
    expect_fault(h.channels, 8, 1, 1, 4, "channel 1, word 1: its property is above 3");
    expect_fault(h.channels, 8, 2, 4, 100000, "channel 2, word 4: its keys leave the floats");
    expect_fault(h.channels, 8, 3, 7, 200, "channel 3, word 6: its values leave the floats");
    expect_fault(h.meshes.meshes, 4, 1, 0, 2, "mesh 1, word 0: its primitives leave their table");
    expect_fault(h.meshes.meshes, 4, 1, 3, 3, "mesh 1, word 2: its weights leave the mesh weights");
    expect_fault(h.meshes.primitives, 16, 0, 2, 7, "primitive 0, word 2: the mark of its normals is neither 0 nor 1");
    expect_fault(h.meshes.primitives, 16, 0, 6, 100000, "primitive 0, word 6: its tangents leave the floats");
    expect_fault(h.meshes.primitives, 16, 1, 15, 2, "primitive 1, word 14: its morph targets leave their table");
    expect_fault(h.meshes.targets, 12, 0, 10, 2, "morph target 0, word 9: its in-betweens leave their table");
    expect_fault(h.meshes.in_betweens, 8, 0, 0, 400, "in-between 0, word 0: its weight lies past the floats");
    expect_fault(h.skins.skins, 4, 0, 1, 2, "skin 0, word 1: the mark of its named root is neither 0 nor 1");
    expect_fault(h.skins.skeletons, 4, 0, 3, 3, "skeleton 0, word 2: its inverse binds leave the floats");
    expect_table(offsetof(mesh3d_header, graph.roots), 0, 1025, "the table of roots leaves the words");
    expect_table(offsetof(mesh3d_header, meshes.meshes), SIZE_MAX, SIZE_MAX, "the table of meshes leaves the words");
}

int main(void) {
    static built_scene s;
    mesh3d_fault none = {0, 0, 0, 0}, many = {MESH3D_OVER_SIZE, MESH3D_ROOTS, 0, MESH3D_TABLE_ITSELF};
    mesh3d_fault odd = {1, 99, 0, 0};
    char text[8];
    build(&s);
    spoil();
    mesh3d_fault_text(mesh3d_scene_fault(&s.lent), text, sizeof text);
    expect_text(text, "no faul");
    if (mesh3d_fault_text(none, NULL, 0) != strlen("no fault")) failures++;
    if (mesh3d_fault_text(many, NULL, 0) != strlen("there are more than 1,024 roots")) failures++;
    if (mesh3d_fault_text(odd, NULL, 0) != strlen("no such fault")) failures++;
    expect_text(mesh3d_refusal_text(0), "accepted");
    expect_text(mesh3d_refusal_text(MESH3D_NO_SUCH_FRAME), "no such frame");
    expect_text(mesh3d_refusal_text(MESH3D_BAD_FORM), "bad form: the text has no reading");
    expect_text(mesh3d_refusal_text(MESH3D_BAD_FORM + 1), "no such refusal number");
    expect_text(mesh3d_reason_text(MESH3D_NO_LENGTH), "its rotation has no length to divide by at this time");
    expect_text(mesh3d_reason_text(UINT32_MAX), "no such reason");
    printf("texts: %zu differ\n", failures);
    return failures != 0;
}
