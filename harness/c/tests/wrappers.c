/* Each function on structs beside the function of the archive that it hands them to, on slices of different lengths and
   contents: answers and everything lent must be the same after. All of it on a thread with 64 kB of stack. */
#include "scene.h"

#include <pthread.h>
#include <stdio.h>

/* All that calls write. */
typedef struct {
    uint32_t marks[17], walk[11], places[6];
    float slots[43], worlds[69], positions[14], normals[15], tangents[19], palette[37], weights[3];
    uint32_t out[7], word_room[401];
    float float_room[409], value[4];
    uint8_t bytes[16], byte_weights[9], byte_places[21], byte_worlds[270];
    uint8_t byte_positions[50], byte_normals[54], byte_tangents[70];
    uint32_t table_words[399];
    float table_floats[403], table_node_weights[5], table_mesh_weights[6];
    uint8_t text[5000];
} written;

static built_scene built;
static written one, two;
static size_t failures;

static void expect(int holds, const char *what) {
    if (!holds) {
        failures++;
        printf("wrappers: %s differs\n", what);
    }
}

static void start(void) {
    size_t i;
    for (i = 0; i < sizeof one; i++) ((uint8_t *)&one)[i] = (uint8_t)(i % 61 + 1);
    memset(one.slots, 0, sizeof one.slots);
    memset(one.marks, 0, sizeof one.marks);
    two = one;
}

static void alike(const char *what) {
    expect(memcmp(&one, &two, sizeof one) == 0, what);
}

#define LEN(list) (sizeof(list) / sizeof((list)[0]))
#define ALL(list) list, LEN(list)
#define SCENE                                                                                                  \
    built.lent.words, built.lent.words_len, built.lent.floats, built.lent.floats_len, built.lent.node_weights, \
        built.lent.node_weights_len, built.lent.mesh_weights, built.lent.mesh_weights_len, built.lent.header
#define BYTES                                                                                       \
    (const uint8_t *)built.words, built.lent.words_len * 4, (const uint8_t *)built.floats,          \
        built.lent.floats_len * 4, (const uint8_t *)built.node_weights, built.lent.node_weights_len * 4, \
        (const uint8_t *)built.mesh_weights, built.lent.mesh_weights_len * 4, built.lent.header

static mesh3d_scratch scratch_of(written *w) {
    mesh3d_scratch s = {ALL(w->marks), ALL(w->slots), ALL(w->walk), ALL(w->places), ALL(w->worlds)};
    return s;
}
static mesh3d_vertices vertices_of(written *w) {
    mesh3d_vertices v = {ALL(w->positions), ALL(w->normals), ALL(w->tangents)};
    return v;
}
static mesh3d_byte_vertices byte_vertices_of(written *w) {
    mesh3d_byte_vertices v = {ALL(w->byte_positions), ALL(w->byte_normals), ALL(w->byte_tangents)};
    return v;
}
static mesh3d_decoding decoding_of(written *w) {
    mesh3d_decoding d = {ALL(w->word_room), ALL(w->float_room)};
    return d;
}
static mesh3d_tables tables_of(written *w) {
    mesh3d_tables t = {ALL(w->table_words), ALL(w->table_floats), ALL(w->table_node_weights),
                       ALL(w->table_mesh_weights)};
    return t;
}
static mesh3d_byte_scene byte_scene(void) {
    mesh3d_byte_scene s = {BYTES};
    return s;
}

static void tell(void) {
    mesh3d_fault f = mesh3d_find_fault(SCENE), g = mesh3d_scene_fault(&built.lent);
    mesh3d_passed_over p = mesh3d_find_passed_over(SCENE, 0.5f, 1), q = mesh3d_scene_passed_over(&built.lent, 0.5f, 1);
    mesh3d_room r = mesh3d_bake_room(SCENE, NODE_SKINNED), s = mesh3d_scene_room(&built.lent, NODE_SKINNED);
    mesh3d_root a = mesh3d_skin_root(SCENE, 0), b = mesh3d_scene_skin_root(&built.lent, 0);
    expect(mesh3d_tables_number(SCENE) == mesh3d_scene_number(&built.lent), "number");
    expect(f.number == g.number && f.table == g.table && f.record == g.record && f.word == g.word, "fault");
    expect(p.number == q.number && p.reason == q.reason && p.channel == q.channel, "passed over");
    expect(p.number == 0 && p.reason == MESH3D_NO_SUCH_NODE && p.channel == 3, "the channel passed over");
    expect(r.number == s.number && r.marks == s.marks && r.slots == s.slots && r.walk == s.walk &&
           r.places == s.places && r.worlds == s.worlds && r.positions == s.positions && r.normals == s.normals &&
           r.tangents == s.tangents, "room");
    expect(a.number == b.number && a.node == b.node && a.number == 0, "root");
}

static void call_scene(void) {
    mesh3d_scratch scratch = scratch_of(&two);
    mesh3d_placed a, b;
    mesh3d_told c, d;
    start();
    expect(mesh3d_parents(SCENE, ALL(one.out)) == mesh3d_scene_parents(&built.lent, ALL(two.out)), "parents");
    expect(mesh3d_sample_pose(SCENE, 0.5f, ALL(one.marks), ALL(one.slots)) ==
           mesh3d_scene_pose(&built.lent, 0.5f, &scratch), "pose");
    a = mesh3d_place_floats(SCENE, ALL(one.marks), ALL(one.slots), ALL(one.walk), ALL(one.places), ALL(one.worlds));
    b = mesh3d_scene_place(&built.lent, &scratch);
    expect(a.number == 0 && a.number == b.number && a.taken == b.taken, "placing");
    c = mesh3d_joint_matrices_floats(SCENE, NODE_SKINNED, ALL(one.places), ALL(one.worlds), ALL(one.palette));
    d = mesh3d_scene_joint_matrices(&built.lent, NODE_SKINNED, &scratch, ALL(two.palette));
    expect(c.number == 0 && c.number == d.number && c.count == d.count, "palette");
    c = mesh3d_effective_weights_floats(SCENE, NODE_SKINNED, ALL(one.weights));
    d = mesh3d_scene_weights(&built.lent, NODE_SKINNED, ALL(two.weights));
    expect(c.number == 0 && c.number == d.number && c.count == d.count, "weights");
    alike("what the calls on a scene leave");
}

static void bake_node(uint32_t node) {
    mesh3d_scratch scratch = scratch_of(&two);
    mesh3d_vertices output = vertices_of(&two);
    mesh3d_baked a, b;
    start();
    a = mesh3d_bake_floats(SCENE, node, 0.5f, ALL(one.marks), ALL(one.slots), ALL(one.walk), ALL(one.places),
                           ALL(one.worlds), ALL(one.positions), ALL(one.normals), ALL(one.tangents));
    b = mesh3d_scene_bake(&built.lent, node, 0.5f, &scratch, &output);
    expect(a.number == 0 && a.number == b.number && a.positions == b.positions && a.normals == b.normals &&
           a.tangents == b.tangents && a.taken == b.taken, "bake");
    alike("what a bake leaves");
}

static void call_bytes(void) {
    mesh3d_byte_scene scene = byte_scene();
    mesh3d_scratch scratch = scratch_of(&two);
    mesh3d_decoding room = decoding_of(&two);
    mesh3d_vertices output = vertices_of(&two);
    mesh3d_byte_vertices bytes = byte_vertices_of(&two);
    mesh3d_placed a, b;
    mesh3d_baked c, d;
    start();
    a = mesh3d_place(BYTES, ALL(one.word_room), ALL(one.float_room), ALL(one.marks), ALL(one.slots), ALL(one.walk),
                     ALL(one.places), ALL(one.worlds), ALL(one.byte_places), ALL(one.byte_worlds));
    b = mesh3d_byte_scene_place(&scene, &room, &scratch, ALL(two.byte_places), ALL(two.byte_worlds));
    expect(a.number == 0 && a.number == b.number && a.taken == b.taken, "placing of bytes");
    alike("what a placing of bytes leaves");
    start();
    c = mesh3d_bake(BYTES, NODE_SKINNED, 0x3f000000, ALL(one.word_room), ALL(one.float_room), ALL(one.marks),
                    ALL(one.slots), ALL(one.walk), ALL(one.places), ALL(one.worlds), ALL(one.positions),
                    ALL(one.normals), ALL(one.tangents), ALL(one.byte_positions), ALL(one.byte_normals),
                    ALL(one.byte_tangents));
    d = mesh3d_byte_scene_bake(&scene, NODE_SKINNED, 0x3f000000, &room, &scratch, &output, &bytes);
    expect(c.number == 0 && c.number == d.number && c.positions == d.positions && c.normals == d.normals &&
           c.tangents == d.tangents && c.taken == d.taken, "bake of bytes");
    alike("what a bake of bytes leaves");
}

/* Three frames of two weights, and their rows where the track is a cubic spline. */
static void call_tracks(uint32_t interpolation) {
    static const float table[] = {9, 8, 7, 6, 0, 1, 2, 5, 6, 1, 2, 3, 4, 9, 8, 0.5f, 0.25f, 3, 1, 2, 4, 5, 7, 0, 1, 6};
    size_t count = interpolation == MESH3D_CUBIC_SPLINE ? 18 : 6;
    mesh3d_track t = {ALL(table), MESH3D_SCALAR, interpolation, {4, 3}, {7, 0}};
    mesh3d_byte_track u = {(const uint8_t *)table, sizeof table, MESH3D_SCALAR, interpolation, {4, 3}, {7, 0}};
    mesh3d_told a, b;
    uint32_t rows = interpolation == MESH3D_CUBIC_SPLINE;
    t.values.count = u.values.count = count;
    start();
    a = mesh3d_sample_floats(ALL(table), MESH3D_SCALAR, interpolation, 4, 3, 7, count, 0.5f, one.value,
                             ALL(one.palette));
    b = mesh3d_track_sample(&t, 0.5f, two.value, ALL(two.palette));
    expect(a.number == 0 && a.count == 2 && b.number == 0 && b.count == 2, "sample");
    a = mesh3d_sample((const uint8_t *)table, sizeof table, MESH3D_SCALAR, interpolation, 4, 3, 7, count, 0x3f000000,
                      ALL(one.float_room), one.bytes, ALL(one.byte_weights));
    b = mesh3d_byte_track_sample(&u, 0x3f000000, ALL(two.float_room), two.bytes, ALL(two.byte_weights));
    expect(a.number == 0 && a.count == 2 && b.number == 0 && b.count == 2, "sample of bytes");
    a = mesh3d_frame_floats(ALL(table), MESH3D_SCALAR, interpolation, 4, 3, 7, count, rows, 1, ALL(one.worlds));
    b = mesh3d_track_frame(&t, rows, 1, ALL(two.worlds));
    expect(a.number == 0 && b.number == 0 && a.count == b.count, "frame");
    expect(mesh3d_stride_floats(ALL(table), MESH3D_SCALAR, interpolation, 4, 3, 7, count) == 2 &&
           mesh3d_track_stride(&t) == 2, "stride");
    alike("what the calls on a track leave");
}

static void call_vertices(void) {
    static const float m[16] = {1, 2, 0, 3, 0, 1, 0.5f, 0, -1, 0, 2, 1, 0, 0, 0, 1}, weights[2] = {0.5f, 0.25f};
    static const float palette[16] = {2, 0, 0, 1, 0, 2, 0, 0, 0, 0, 2, 3, 0, 0, 0, 1}, full[5] = {1, 0, 0, 0, 1};
    static const uint32_t joints[4] = {0, 0, 0, 0};
    mesh3d_influences by = {ALL(palette), ALL(joints), ALL(full)};
    mesh3d_vertices v = vertices_of(&two);
    start();
    mesh3d_transformed_floats(m, ALL(one.positions), ALL(one.normals), ALL(one.tangents));
    mesh3d_transform_vertices(m, &v);
    alike("transformed vertices");
    mesh3d_skinned_floats(ALL(palette), ALL(joints), ALL(full), ALL(one.positions), ALL(one.normals),
                          ALL(one.tangents));
    mesh3d_skin_vertices(&by, &v);
    alike("skinned vertices");
    mesh3d_morphed_floats(built.lent.words, built.lent.words_len, built.lent.floats, built.lent.floats_len,
                          built.lent.header, 1, 2, ALL(weights), ALL(one.positions), ALL(one.normals),
                          ALL(one.tangents));
    mesh3d_morph_vertices(&built.lent, part(1, 2), ALL(weights), &v);
    alike("morphed vertices");
}

/* The scene written as text, read back, and written once more from what was read. */
static void call_texts(void) {
    const uint32_t asked = 123456;
    mesh3d_tables tables = tables_of(&two);
    mesh3d_text_written a, b;
    mesh3d_needed n, m;
    mesh3d_reading r, s;
    mesh3d_scene read;
    start();
    a = mesh3d_text_length(SCENE, asked, 0.75f);
    b = mesh3d_scene_text_length(&built.lent, asked, 0.75f);
    expect(a.number == 0 && a.number == b.number && a.length == b.length, "length of a text");
    a = mesh3d_write_scene(SCENE, asked, 0.75f, ALL(one.text));
    expect(a.number == 0 && a.length == b.length, "length of what is written");
    b = mesh3d_scene_write(&built.lent, asked, 0.75f, ALL(two.text));
    expect(a.number == b.number && a.length == b.length, "writing");
    n = mesh3d_text_room(one.text, a.length);
    m = mesh3d_tables_needed(two.text, b.length);
    expect(n.number == 0 && n.number == m.number && n.words == m.words && n.floats == m.floats &&
           n.node_weights == m.node_weights && n.mesh_weights == m.mesh_weights, "room of a text");
    expect(n.node_weights == 2 && n.mesh_weights == 3, "room of the weights");
    r = mesh3d_read_scene(one.text, a.length, ALL(one.table_words), ALL(one.table_floats),
                          ALL(one.table_node_weights), ALL(one.table_mesh_weights));
    s = mesh3d_tables_read(&tables, two.text, b.length);
    expect(r.number == 0 && r.node == asked && r.time == 0.75f, "what a text asks for");
    expect(r.number == s.number && r.node == s.node && r.time == s.time &&
           memcmp(&r.header, &s.header, sizeof r.header) == 0, "reading");
    alike("what the calls on texts leave");
    read = mesh3d_tables_scene(&tables, s.header);
    memset(two.text, 0, b.length);
    b = mesh3d_scene_write(&read, s.node, s.time, ALL(two.text));
    expect(a.number == b.number && a.length == b.length, "writing once more");
    alike("what is written once more");
}

/* Nothing at all, with null pointers, and an empty scene. */
static void call_empty(void) {
    mesh3d_scene scene;
    mesh3d_scratch scratch;
    mesh3d_vertices output;
    memset(&scene, 0, sizeof scene);
    memset(&scratch, 0, sizeof scratch);
    memset(&output, 0, sizeof output);
    expect(mesh3d_scene_number(&scene) == MESH3D_ACCEPTED, "the number of nothing");
    expect(mesh3d_scene_fault(&scene).number == MESH3D_ACCEPTED, "the fault of nothing");
    expect(mesh3d_scene_parents(&scene, NULL, 0) == MESH3D_ACCEPTED, "the parents of nothing");
    expect(mesh3d_scene_pose(&scene, 0, &scratch) == MESH3D_ACCEPTED, "the pose of nothing");
    expect(mesh3d_scene_place(&scene, &scratch).number == MESH3D_ACCEPTED, "the placing of nothing");
    expect(mesh3d_scene_room(&scene, 0).number == MESH3D_NO_SUCH_PIECE, "the room of nothing");
    expect(mesh3d_scene_bake(&scene, 0, 0, &scratch, &output).number == MESH3D_NO_SUCH_PIECE, "the bake of nothing");
    mesh3d_transform_vertices(built.floats, &output);
}

/* Where a text breaks: nowhere, at its end, and where a byte in its middle is spoilt. */
static void call_breaks(void) {
    size_t length = mesh3d_scene_text_length(&built.lent, 0, 0).length, spoilt = length / 2;
    mesh3d_break x, y;
    start();
    mesh3d_scene_write(&built.lent, 0, 0, ALL(one.text));
    x = mesh3d_find_break(one.text, length);
    y = mesh3d_text_break(one.text, length);
    expect(x.number == 0 && x.at == 0 && y.number == 0 && y.at == 0, "no break");
    x = mesh3d_find_break(one.text, length - 1);
    y = mesh3d_text_break(one.text, length - 1);
    expect(x.number == MESH3D_BAD_FORM && x.at == length - 1 && y.number == x.number && y.at == x.at, "break");
    one.text[spoilt] = '?';
    x = mesh3d_find_break(one.text, length);
    y = mesh3d_text_break(one.text, length);
    expect(x.at <= spoilt && spoilt < x.at + 9 && y.number == x.number && y.at == x.at, "the place of a break");
    expect(mesh3d_text_break(NULL, 0).number == MESH3D_BAD_FORM, "the break of no text");
}

/* A text that is nothing, and that of an empty scene, with null pointers. */
static void call_empty_texts(void) {
    static const char text[] = "(scene (node 0) (time 00000000) (roots))\n";
    mesh3d_tables tables;
    mesh3d_scene scene;
    memset(&tables, 0, sizeof tables);
    expect(mesh3d_tables_needed(NULL, 0).number == MESH3D_BAD_FORM, "the room of no text");
    expect(mesh3d_tables_read(&tables, NULL, 0).number == MESH3D_BAD_FORM, "the reading of no text");
    expect(mesh3d_tables_read(&tables, text, sizeof text - 1).number == MESH3D_ACCEPTED, "the reading of nothing");
    scene = mesh3d_tables_scene(&tables, mesh3d_tables_read(&tables, text, sizeof text - 1).header);
    expect(mesh3d_scene_text_length(&scene, 0, 0).length == sizeof text - 1, "the length of nothing");
    expect(mesh3d_scene_write(&scene, 0, 0, NULL, 0).number == MESH3D_SHORT_SHEET, "the writing of nothing");
}

static void *run(void *unused) {
    build(&built);
    tell();
    call_scene();
    bake_node(NODE_SKINNED);
    bake_node(NODE_PLAIN);
    call_bytes();
    call_tracks(MESH3D_LINEAR);
    call_tracks(MESH3D_CUBIC_SPLINE);
    call_vertices();
    call_texts();
    call_breaks();
    call_empty();
    call_empty_texts();
    return unused;
}

int main(void) {
    pthread_attr_t small;
    pthread_t thread;
    if (pthread_attr_init(&small) || pthread_attr_setstacksize(&small, 64 << 10) ||
        pthread_create(&thread, &small, run, NULL) || pthread_join(thread, NULL)) {
        puts("wrappers: no thread");
        return 2;
    }
    printf("wrappers: %zu differ\n", failures);
    return failures != 0;
}
