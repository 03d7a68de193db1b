/* mesh3d: the pose, the placing, the skin, the morph and the bake of a scene, proved. Link with libmesh3d.a (`make`
   builds it; `make install PREFIX=..` puts both where `pkg-config mesh3d` finds them). C99 and later, C++11 and
   later.
   Slices. A slice is a pointer and a length in entries; a pointer to an array reaches over the length that is given.
   The functions of the archive take no null pointer, not even with length 0; the inline functions at the end, on
   structs, take null where the length is 0. Slices that are written must not overlap others.
   Every input is answered. Whatever the slices hold, each call returns, with a result or a refusal number (the enum
   below) of which the lowest that applies is answered, 13 before all others; each number fixes what every slice holds
   then. docs/TABLES.md says what a scene and a track are, and the usual causes of each number.
   Memory and threads. No function allocates, keeps anything between calls, or reads or writes a global. Calls in
   several threads do not disturb each other where what one writes is lent to no other. A call needs at most 64 kB of
   stack.
   Floats are IEEE 754, of 32 bits, rounded to nearest: a thread that has changed the rounding mode, or flushes
   subnormal numbers to zero, gets other bits. All NaNs count as one; which of them is written is not told, but as
   bytes a NaN is written 7fc00000.
   Platform: 64-bit x86, little-endian, the System V calling convention (Linux); SSE2 is enough. */
#ifndef MESH3D_H
#define MESH3D_H

#include <stdbool.h>
#include <stddef.h>
#include <stdint.h>

#ifdef __cplusplus
extern "C" {
#endif

/* ---- refusals ---- */

/* In the words of the scope; mesh3d_refusal_text says them plainly. */
enum mesh3d_refusal {
    MESH3D_ACCEPTED = 0,
    MESH3D_SHORT_STOCK = 1,
    MESH3D_OVER_SIZE = 2,
    MESH3D_NO_TIME = 3,
    MESH3D_UNEVEN_TRACK = 4,
    MESH3D_KEYS_OUT_OF_LINE = 5,
    MESH3D_SHORT_BENCH = 6,
    MESH3D_NO_SUCH_PIECE = 7,
    MESH3D_UNPLACED = 8,
    MESH3D_NO_PALETTE = 9,
    MESH3D_SHORT_SHEET = 10,
    MESH3D_NO_COMMON_ROOT = 11,
    MESH3D_NO_SUCH_FRAME = 12,
    MESH3D_BAD_FORM = 13
};

/* A refusal number, or 0, and how many floats were written. */
typedef struct {
    uint32_t number;
    size_t count;
} mesh3d_told;

/* ---- a scene in tables (docs/TABLES.md) ---- */

/* Where a table starts, and how many records it has; or where keys or values start, and how many there are. */
typedef struct {
    size_t at;
    size_t count;
} mesh3d_part;

typedef struct {
    mesh3d_part nodes;
    mesh3d_part roots;
} mesh3d_graph;

typedef struct {
    mesh3d_part meshes;
    mesh3d_part primitives;
    mesh3d_part targets;
    mesh3d_part in_betweens;
} mesh3d_meshes;

typedef struct {
    mesh3d_part skins;
    mesh3d_part skeletons;
} mesh3d_skins;

typedef struct {
    mesh3d_graph graph;
    mesh3d_part channels;
    mesh3d_meshes meshes;
    mesh3d_skins skins;
} mesh3d_header;

/* 1, 2 or 0: what the tables draw, over all that is lent. */
uint32_t mesh3d_tables_number(const uint32_t *words, size_t words_len, const float *floats, size_t floats_len,
                              const float *node_weights, size_t node_weights_len, const float *mesh_weights,
                              size_t mesh_weights_len, mesh3d_header header);

/* The mark of each node at the start of `out`: 0 for none, 1 for a root, p + 3 where node p lists it. Answers 1, 2,
   10 or 0; where it is not 0, `out` is as lent. */
uint32_t mesh3d_parents(const uint32_t *words, size_t words_len, const float *floats, size_t floats_len,
                        const float *node_weights, size_t node_weights_len, const float *mesh_weights,
                        size_t mesh_weights_len, mesh3d_header header, uint32_t *out, size_t out_len);

/* The pose of every node at a time, in slots of four words and ten floats. The words mark translation, rotation and
   scale; the fourth is 1 + the channel that gives the morph weights, or 0. Floats that are not posed are 0. Answers
   1, 2, 3, 5, 6 or 0; where it is not 0, nothing is changed. */
uint32_t mesh3d_sample_pose(const uint32_t *words, size_t words_len, const float *floats, size_t floats_len,
                            const float *node_weights, size_t node_weights_len, const float *mesh_weights,
                            size_t mesh_weights_len, mesh3d_header header, float time, uint32_t *marks,
                            size_t marks_len, float *slots, size_t slots_len);

/* A refusal number, or 0, and the entries that the placing took. */
typedef struct {
    uint32_t number;
    size_t taken;
} mesh3d_placed;

/* Where every node stands in a given pose: the code of its place in `places`, as for mesh3d_parents, and its world
   in `worlds`, sixteen floats each. A pose slot is four words of `marks` and ten floats of `slots`, as for
   mesh3d_sample_pose; a mark above 1 means the same as 1. The walk room has two words an entry, and is zeros after.
   Answers 1, 2, 6 or 0; where it is not 0, nothing is changed. */
mesh3d_placed mesh3d_place_floats(const uint32_t *words, size_t words_len, const float *floats, size_t floats_len,
                                  const float *node_weights, size_t node_weights_len, const float *mesh_weights,
                                  size_t mesh_weights_len, mesh3d_header header, const uint32_t *marks,
                                  size_t marks_len, const float *slots, size_t slots_len, uint32_t *walk,
                                  size_t walk_len, uint32_t *places, size_t places_len, float *worlds,
                                  size_t worlds_len);

/* The same of a scene in little-endian bytes; bytes past the last whole word of a slice are not counted. The scene
   is decoded into `word_room`, a word for each word, and `float_room`, a float for each float of `floats`,
   `node_weights` and `mesh_weights` together; 6 where one is shorter. Codes and worlds are left in `codes` and
   `matrices`, as mesh3d_place_floats leaves them, and once more as bytes in `places` and `worlds`; there are as many
   world slots as both have. Accepted, the decoding room starts with the scene and is as lent past it. Answers 1, 2,
   6 or 0; where it is not 0, nothing is changed. */
mesh3d_placed mesh3d_place(const uint8_t *words, size_t words_len, const uint8_t *floats, size_t floats_len,
                           const uint8_t *node_weights, size_t node_weights_len, const uint8_t *mesh_weights,
                           size_t mesh_weights_len, mesh3d_header header, uint32_t *word_room, size_t word_room_len,
                           float *float_room, size_t float_room_len, const uint32_t *marks, size_t marks_len,
                           const float *slots, size_t slots_len, uint32_t *walk, size_t walk_len, uint32_t *codes,
                           size_t codes_len, float *matrices, size_t matrices_len, uint8_t *places, size_t places_len,
                           uint8_t *worlds, size_t worlds_len);

/* ---- the bake of one node ---- */

/* A refusal number, or 0, the floats written to each output, and the entries that the placing took. */
typedef struct {
    uint32_t number;
    size_t positions;
    size_t normals;
    size_t tangents;
    size_t taken;
} mesh3d_baked;

/* The mesh of a node in the world at a time: blended, then skinned or transformed, its primitives one after the
   other at the start of the outputs, of three floats a position or normal and four a tangent. Pose slots, walk room
   and worlds are lent as for mesh3d_sample_pose and mesh3d_place_floats, and hold the pose and the placing after.
   Answers 1, 2, 3, 5 to 10 or 0; where it is not 0, the outputs are as lent, and after 1 to 7 so is the rest. */
mesh3d_baked mesh3d_bake_floats(const uint32_t *words, size_t words_len, const float *floats, size_t floats_len,
                                const float *node_weights, size_t node_weights_len, const float *mesh_weights,
                                size_t mesh_weights_len, mesh3d_header header, uint32_t node, float time,
                                uint32_t *marks, size_t marks_len, float *slots, size_t slots_len, uint32_t *walk,
                                size_t walk_len, uint32_t *places, size_t places_len, float *worlds, size_t worlds_len,
                                float *positions, size_t positions_len, float *normals, size_t normals_len,
                                float *tangents, size_t tangents_len);

/* The same of a scene in little-endian bytes: `time` is the bit pattern of a float, and bytes past the last whole
   word of a slice are not counted. The scene is decoded as by mesh3d_place. The mesh is left in the three slices of
   floats, and once more as bytes in the three behind them; an output has as much room as both have. After 1 to 7
   nothing is changed; after 0 and 8 to 10 the decoding room starts with the scene and is as lent past it. What
   scratch room and outputs held at entry is not read. */
mesh3d_baked mesh3d_bake(const uint8_t *words, size_t words_len, const uint8_t *floats, size_t floats_len,
                         const uint8_t *node_weights, size_t node_weights_len, const uint8_t *mesh_weights,
                         size_t mesh_weights_len, mesh3d_header header, uint32_t node, uint32_t time,
                         uint32_t *word_room, size_t word_room_len, float *float_room, size_t float_room_len,
                         uint32_t *marks, size_t marks_len, float *slots, size_t slots_len, uint32_t *walk,
                         size_t walk_len, uint32_t *places, size_t places_len, float *worlds, size_t worlds_len,
                         float *position_floats, size_t position_floats_len, float *normal_floats,
                         size_t normal_floats_len, float *tangent_floats, size_t tangent_floats_len,
                         uint8_t *positions, size_t positions_len, uint8_t *normals, size_t normals_len,
                         uint8_t *tangents, size_t tangents_len);

/* A refusal number, or 0, and the lengths of the slices that a bake needs, each in entries of its slice. */
typedef struct {
    uint32_t number;
    size_t marks;
    size_t slots;
    size_t walk;
    size_t places;
    size_t worlds;
    size_t positions;
    size_t normals;
    size_t tangents;
} mesh3d_room;

/* How much room a bake of the node needs: with that much it answers neither 6 nor 10; where it is accepted with some
   room, less in any scratch slice draws 6, and less in an output 10. Answers 1, 2, 7 or 0; refused, all lengths are
   0. */
mesh3d_room mesh3d_bake_room(const uint32_t *words, size_t words_len, const float *floats, size_t floats_len,
                             const float *node_weights, size_t node_weights_len, const float *mesh_weights,
                             size_t mesh_weights_len, mesh3d_header header, uint32_t node);

/* ---- where a fault is ---- */

/* In the order of the header. */
enum mesh3d_table {
    MESH3D_NODES = 0,
    MESH3D_ROOTS = 1,
    MESH3D_CHANNELS = 2,
    MESH3D_MESHES = 3,
    MESH3D_PRIMITIVES = 4,
    MESH3D_TARGETS = 5,
    MESH3D_IN_BETWEENS = 6,
    MESH3D_SKINS = 7,
    MESH3D_SKELETONS = 8
};

/* In place of a word: the table itself, by its place and its count in the header. */
#define MESH3D_TABLE_ITSELF 16u

/* What mesh3d_tables_number answers, and where: the table, the number of the record in it, and the word of the
   record. Where there is no fault all are 0. */
typedef struct {
    uint32_t number;
    uint32_t table;
    size_t record;
    uint32_t word;
} mesh3d_fault;

/* The first fault of a scene that draws 1 or 2: tables in the order of the header, of each the table itself first,
   then its records, and of a record its words in order. */
mesh3d_fault mesh3d_find_fault(const uint32_t *words, size_t words_len, const float *floats, size_t floats_len,
                               const float *node_weights, size_t node_weights_len, const float *mesh_weights,
                               size_t mesh_weights_len, mesh3d_header header);

/* Why a pose passes over a channel: the first that applies. */
enum mesh3d_reason {
    MESH3D_GIVES_A_VALUE = 0,
    MESH3D_NO_SUCH_NODE = 1,
    MESH3D_UNEVEN = 2,
    MESH3D_KIND_DOES_NOT_FIT = 3,
    MESH3D_NO_LENGTH = 4
};

/* A refusal number, or 0; why a channel is passed over, and its number in the table; both 0 where none is. */
typedef struct {
    uint32_t number;
    uint32_t reason;
    size_t channel;
} mesh3d_passed_over;

/* The first channel, from number `from` on, that gives its node nothing at this time. Answers 1, 2, 3, 5 or 0. */
mesh3d_passed_over mesh3d_find_passed_over(const uint32_t *words, size_t words_len, const float *floats,
                                           size_t floats_len, const float *node_weights, size_t node_weights_len,
                                           const float *mesh_weights, size_t mesh_weights_len, mesh3d_header header,
                                           float time, size_t from);

/* ---- skins and morph weights ---- */

/* The palette of a node at the start of `out`, sixteen floats a joint, from places and worlds as mesh3d_place_floats
   leaves them. Answers 1, 2, 6, 7, 9, 10 or 0, and how many floats were written; where the number is not 0, `out` is
   as lent. */
mesh3d_told mesh3d_joint_matrices_floats(const uint32_t *words, size_t words_len, const float *floats,
                                         size_t floats_len, const float *node_weights, size_t node_weights_len,
                                         const float *mesh_weights, size_t mesh_weights_len, mesh3d_header header,
                                         uint32_t node, const uint32_t *places, size_t places_len, const float *worlds,
                                         size_t worlds_len, float *out, size_t out_len);

/* A refusal number, or 0, and the id of a node. */
typedef struct {
    uint32_t number;
    uint32_t node;
} mesh3d_root;

/* The root of a skin: the node that it names, or the nearest one that is above all joints. Answers 1, 2, 11 or 0. */
mesh3d_root mesh3d_skin_root(const uint32_t *words, size_t words_len, const float *floats, size_t floats_len,
                             const float *node_weights, size_t node_weights_len, const float *mesh_weights,
                             size_t mesh_weights_len, mesh3d_header header, uint32_t skin);

/* The weights that a node's mesh is blended with, copied to the start of `out`. Answers 1, 2, 7, 10 or 0, and how
   many floats were copied; where the number is not 0, `out` is as lent. */
mesh3d_told mesh3d_effective_weights_floats(const uint32_t *words, size_t words_len, const float *floats,
                                            size_t floats_len, const float *node_weights, size_t node_weights_len,
                                            const float *mesh_weights, size_t mesh_weights_len, mesh3d_header header,
                                            uint32_t node, float *out, size_t out_len);

/* ---- scenes as text (docs/TEXT.md) ---- */

/* A refusal number, or 0; the header of the scene that was read, and the node and the time that its text asks for.
   Refused, all but the number are 0. */
typedef struct {
    uint32_t number;
    mesh3d_header header;
    uint32_t node;
    float time;
} mesh3d_reading;

/* Reads a scene from a text into its four tables, each at the start of its slice, which is as lent past it. Answers
   13, 1, 10 or 0, judged in this order; where it is not 0, nothing is changed. The tables of a scene that was read
   may still draw 2. */
mesh3d_reading mesh3d_read_scene(const uint8_t *text, size_t text_len, uint32_t *words, size_t words_len, float *floats,
                                 size_t floats_len, float *node_weights, size_t node_weights_len, float *mesh_weights,
                                 size_t mesh_weights_len);

/* A refusal number, or 0, and how long the tables of a scene are. */
typedef struct {
    uint32_t number;
    size_t words;
    size_t floats;
    size_t node_weights;
    size_t mesh_weights;
} mesh3d_needed;

/* How long the slices must be that a text is read into: with that much, and less than 2^32 each, mesh3d_read_scene
   does not answer 10, and less in any of them draws it. Answers 13, 1 or 0; refused, all lengths are 0. */
mesh3d_needed mesh3d_text_room(const uint8_t *text, size_t text_len);

/* A refusal number, or 0, and the place of a byte in a text. */
typedef struct {
    uint32_t number;
    size_t at;
} mesh3d_break;

/* Where a text that has no reading breaks: at the first byte that departs from the grammar; where none does, at the
   closing bracket of the first field or form of the wrong shape, or at the end of the text. Answers 13 or 0; where it
   is 0, so is the place. */
mesh3d_break mesh3d_find_break(const uint8_t *text, size_t text_len);

/* A refusal number, or 0, and how many bytes a text has. */
typedef struct {
    uint32_t number;
    size_t length;
} mesh3d_text_written;

/* Writes a scene as text, with the node and the time that are asked for, to the start of `out`, which is as lent past
   it; no 0 is put behind it. Answers 1, 2, 10 or 0; where it is not 0, `out` is as lent, and the length 0. */
mesh3d_text_written mesh3d_write_scene(const uint32_t *words, size_t words_len, const float *floats, size_t floats_len,
                                       const float *node_weights, size_t node_weights_len, const float *mesh_weights,
                                       size_t mesh_weights_len, mesh3d_header header, uint32_t node, float time,
                                       uint8_t *out, size_t out_len);

/* How long that text is; 2^63 where it is longer than any slice. Answers 1, 2 or 0; refused, the length is 0. */
mesh3d_text_written mesh3d_text_length(const uint32_t *words, size_t words_len, const float *floats, size_t floats_len,
                                       const float *node_weights, size_t node_weights_len, const float *mesh_weights,
                                       size_t mesh_weights_len, mesh3d_header header, uint32_t node, float time);

/* ---- tracks ---- */

/* Any other kind or interpolation draws 2. */
enum mesh3d_kind { MESH3D_VEC3 = 0, MESH3D_QUAT = 1, MESH3D_SCALAR = 2 };
enum mesh3d_interpolation { MESH3D_STEP = 0, MESH3D_LINEAR = 1, MESH3D_CUBIC_SPLINE = 2 };

/* A track lies in a table of floats: where its keys start and how many there are; the same of its values, which are
   counted by the kind's entries. A Vec3 or Quat is written to the start of `value`, weights to the start of `out`;
   otherwise both are as lent. */
mesh3d_told mesh3d_sample_floats(const float *floats, size_t floats_len, uint32_t kind, uint32_t interpolation,
                                 size_t keys_at, size_t keys_count, size_t values_at, size_t values_count, float time,
                                 float value[4], float *out, size_t out_len);
/* The same on little-endian bytes: `time` is the bit pattern of a float, `value` and `out` take the bytes of floats.
   Bytes past the last whole float of a slice are not counted. The table is decoded into `room`; where that has fewer
   floats than the table, 6 is drawn. Where 0 or 10 is answered, the floats of the table stand at the start of
   `room`, and past them it is as lent; where 1 to 6 is answered, all of it is as lent. */
mesh3d_told mesh3d_sample(const uint8_t *table, size_t table_len, uint32_t kind, uint32_t interpolation, size_t keys_at,
                          size_t keys_count, size_t values_at, size_t values_count, uint32_t time, float *room,
                          size_t room_len, uint8_t value[16], uint8_t *out, size_t out_len);
/* The weights of frame k or, where the mark `rows` is not 0, all three rows, copied to the start of `out`. Answers
   1, 2, 4, 10, 12 or 0, and how many floats were copied; where the number is not 0, `out` is as lent. */
mesh3d_told mesh3d_frame_floats(const float *floats, size_t floats_len, uint32_t kind, uint32_t interpolation,
                                size_t keys_at, size_t keys_count, size_t values_at, size_t values_count, uint32_t rows,
                                size_t k, float *out, size_t out_len);
/* The weights per frame of an even scalar track, and 0 of any other, or where the track draws 1 or 2. */
size_t mesh3d_stride_floats(const float *floats, size_t floats_len, uint32_t kind, uint32_t interpolation,
                            size_t keys_at, size_t keys_count, size_t values_at, size_t values_count);
/* 1 where every key is finite and above the one before, otherwise 0. */
uint32_t mesh3d_keys_in_line_floats(const float *keys, size_t keys_len);

/* ---- vertices ---- */

/* Vertices lie in flat slices and are changed in place: three floats a position or a normal, four a tangent. An
   attribute that is absent has length 0. Floats past the last whole row are as lent. */

/* Positions with the perspective division, normals by the inverse transpose of f64 narrowed, tangents by the linear
   part; the handedness flips where the determinant is negative. */
void mesh3d_transformed_floats(const float m[16], float *positions, size_t positions_len, float *normals,
                               size_t normals_len, float *tangents, size_t tangents_len);
/* Four joints and four weights a vertex; an influence counts if its weight is finite and above 0 and its joint is in
   the palette. A vertex with none that counts, or with no row, is as lent. */
void mesh3d_skinned_floats(const float *palette, size_t palette_len, const uint32_t *joints, size_t joints_len,
                           const float *weights, size_t weights_len, float *positions, size_t positions_len,
                           float *normals, size_t normals_len, float *tangents, size_t tangents_len);
/* Adds targets, from number `targets_at` of the table on, at the weights, up to the shorter. It has no number: what
   lies outside its slice reads as zeros or is cut off. */
void mesh3d_morphed_floats(const uint32_t *words, size_t words_len, const float *floats, size_t floats_len,
                           mesh3d_header header, size_t targets_at, size_t targets_count, const float *weights,
                           size_t weights_len, float *positions, size_t positions_len, float *normals,
                           size_t normals_len, float *tangents, size_t tangents_len);

/* ---- matrices: sixteen floats row by row, or nine; quaternions x, y, z, w ---- */

/* Where a number is answered it is 1 and `out` holds the result, or 0 and `out` is as lent. */
float mesh3d_vec3_len(const float v[3]);
uint32_t mesh3d_normalize3(const float v[3], float out[3]);
void mesh3d_mul3(const float l[9], const float v[3], float out[3]);
void mesh3d_identity(float out[16]);
void mesh3d_mat4_mul(const float a[16], const float b[16], float out[16]);
void mesh3d_mat4_madd(const float m[16], float w, const float n[16], float out[16]);
void mesh3d_linear_part(const float m[16], float out[9]);
float mesh3d_linear_det(const float m[16]);
void mesh3d_affine_point(const float m[16], const float p[3], float out[3]);
void mesh3d_transform_point(const float m[16], const float p[3], float out[3]);
void mesh3d_trs_to_matrix(const float t[3], const float r[4], const float s[3], float out[16]);
/* Of the parts where the mark is 0, otherwise m itself. */
void mesh3d_to_matrix(uint32_t mark, const float t[3], const float r[4], const float s[3], const float m[16],
                      float out[16]);
/* From three columns. */
void mesh3d_rot_matrix_to_quat(const float a[3], const float b[3], const float c[3], float out[4]);
uint32_t mesh3d_linear_inverse_transpose(const float m[16], float out[9]);
uint32_t mesh3d_mat4_affine_inverse(const float m[16], float out[16]);
uint32_t mesh3d_normal_matrix(const float m[16], float out[9]);
void mesh3d_from_matrix(const float m[16], float t[3], float r[4], float s[3]);

/* ---- numbers: as many results as there are inputs and room; answers how many ---- */

size_t mesh3d_sqrt_all(const float *xs, size_t xs_len, float *out, size_t out_len);
size_t mesh3d_narrow_all(const double *xs, size_t xs_len, float *out, size_t out_len);
size_t mesh3d_turn_weight_all(const float *vs, size_t vs_len, const float *cs, size_t cs_len, float *out,
                              size_t out_len);
/* The roots of sixteen numbers; answers whether all are normal: at least 2^-126, the smallest normal float, and
   below 1e37. */
bool mesh3d_sqrt_block(const float xs[16], float out[16]);

/* ---- words for people ---- */

/* A refusal number in a sentence; a number past the table as "no such refusal number". */
const char *mesh3d_refusal_text(uint32_t number);

/* Why a channel is passed over. */
const char *mesh3d_reason_text(uint32_t reason);

/* A fault in a sentence, as "primitive 3, word 3: its normals leave the floats", cut off and closed with a 0 where
   `text` is shorter. Answers how many characters the whole sentence has, as snprintf does. */
size_t mesh3d_fault_text(mesh3d_fault fault, char *text, size_t text_len);

/* ---- the same calls on structs ---- */

/* A lent scene. Null is fine where a length is 0, here and below. */
typedef struct {
    const uint32_t *words;
    size_t words_len;
    const float *floats;
    size_t floats_len;
    const float *node_weights;
    size_t node_weights_len;
    const float *mesh_weights;
    size_t mesh_weights_len;
    mesh3d_header header;
} mesh3d_scene;

/* The tables that a text is read into. */
typedef struct {
    uint32_t *words;
    size_t words_len;
    float *floats;
    size_t floats_len;
    float *node_weights;
    size_t node_weights_len;
    float *mesh_weights;
    size_t mesh_weights_len;
} mesh3d_tables;

/* A lent scene in bytes. */
typedef struct {
    const uint8_t *words;
    size_t words_len;
    const uint8_t *floats;
    size_t floats_len;
    const uint8_t *node_weights;
    size_t node_weights_len;
    const uint8_t *mesh_weights;
    size_t mesh_weights_len;
    mesh3d_header header;
} mesh3d_byte_scene;

/* The scratch room of a pose, a placing or a bake. */
typedef struct {
    uint32_t *marks;
    size_t marks_len;
    float *slots;
    size_t slots_len;
    uint32_t *walk;
    size_t walk_len;
    uint32_t *places;
    size_t places_len;
    float *worlds;
    size_t worlds_len;
} mesh3d_scratch;

/* What a scene in bytes is decoded into. */
typedef struct {
    uint32_t *word_room;
    size_t word_room_len;
    float *float_room;
    size_t float_room_len;
} mesh3d_decoding;

/* Vertices: the outputs of a bake, or what is changed in place. */
typedef struct {
    float *positions;
    size_t positions_len;
    float *normals;
    size_t normals_len;
    float *tangents;
    size_t tangents_len;
} mesh3d_vertices;

/* The same as bytes. */
typedef struct {
    uint8_t *positions;
    size_t positions_len;
    uint8_t *normals;
    size_t normals_len;
    uint8_t *tangents;
    size_t tangents_len;
} mesh3d_byte_vertices;

/* A track in a table of floats. */
typedef struct {
    const float *floats;
    size_t floats_len;
    uint32_t kind;
    uint32_t interpolation;
    mesh3d_part keys;
    mesh3d_part values;
} mesh3d_track;

/* A track in a table of bytes. */
typedef struct {
    const uint8_t *floats;
    size_t floats_len;
    uint32_t kind;
    uint32_t interpolation;
    mesh3d_part keys;
    mesh3d_part values;
} mesh3d_byte_track;

/* Where a pointer is null, one that is not; the length that comes with it must be 0. */
static inline const void *mesh3d_in(const void *p) {
    static const double none = 0;
    return p ? p : &none;
}
static inline void *mesh3d_out(void *p) {
    return p ? p : (void *)(uintptr_t)mesh3d_in(p);
}

#define MESH3D_IN(type, lent, slice) (const type *)mesh3d_in((lent)->slice), (lent)->slice##_len
#define MESH3D_OUT(type, lent, slice) (type *)mesh3d_out((lent)->slice), (lent)->slice##_len
#define MESH3D_SCENE(word, number, scene) \
    MESH3D_IN(word, scene, words), MESH3D_IN(number, scene, floats), MESH3D_IN(number, scene, node_weights), \
        MESH3D_IN(number, scene, mesh_weights), (scene)->header
#define MESH3D_LENT(scene) MESH3D_SCENE(uint32_t, float, scene)
#define MESH3D_POSE(how, scratch) how(uint32_t, scratch, marks), how(float, scratch, slots)
#define MESH3D_VERTICES(type, lent) \
    MESH3D_OUT(type, lent, positions), MESH3D_OUT(type, lent, normals), MESH3D_OUT(type, lent, tangents)

static inline uint32_t mesh3d_scene_number(const mesh3d_scene *scene) {
    return mesh3d_tables_number(MESH3D_LENT(scene));
}

static inline mesh3d_fault mesh3d_scene_fault(const mesh3d_scene *scene) {
    return mesh3d_find_fault(MESH3D_LENT(scene));
}

static inline mesh3d_passed_over mesh3d_scene_passed_over(const mesh3d_scene *scene, float time, size_t from) {
    return mesh3d_find_passed_over(MESH3D_LENT(scene), time, from);
}

static inline uint32_t mesh3d_scene_parents(const mesh3d_scene *scene, uint32_t *out, size_t out_len) {
    return mesh3d_parents(MESH3D_LENT(scene), (uint32_t *)mesh3d_out(out), out_len);
}

/* Writes marks and slots. */
static inline uint32_t mesh3d_scene_pose(const mesh3d_scene *scene, float time, const mesh3d_scratch *scratch) {
    return mesh3d_sample_pose(MESH3D_LENT(scene), time, MESH3D_POSE(MESH3D_OUT, scratch));
}

/* Reads marks and slots, writes the rest. */
static inline mesh3d_placed mesh3d_scene_place(const mesh3d_scene *scene, const mesh3d_scratch *scratch) {
    return mesh3d_place_floats(MESH3D_LENT(scene), MESH3D_POSE(MESH3D_IN, scratch),
                               MESH3D_OUT(uint32_t, scratch, walk), MESH3D_OUT(uint32_t, scratch, places),
                               MESH3D_OUT(float, scratch, worlds));
}

/* Reads places and worlds. */
static inline mesh3d_told mesh3d_scene_joint_matrices(const mesh3d_scene *scene, uint32_t node,
                                                      const mesh3d_scratch *scratch, float *out, size_t out_len) {
    return mesh3d_joint_matrices_floats(MESH3D_LENT(scene), node, MESH3D_IN(uint32_t, scratch, places),
                                        MESH3D_IN(float, scratch, worlds), (float *)mesh3d_out(out), out_len);
}

static inline mesh3d_root mesh3d_scene_skin_root(const mesh3d_scene *scene, uint32_t skin) {
    return mesh3d_skin_root(MESH3D_LENT(scene), skin);
}

static inline mesh3d_told mesh3d_scene_weights(const mesh3d_scene *scene, uint32_t node, float *out, size_t out_len) {
    return mesh3d_effective_weights_floats(MESH3D_LENT(scene), node, (float *)mesh3d_out(out), out_len);
}

static inline mesh3d_room mesh3d_scene_room(const mesh3d_scene *scene, uint32_t node) {
    return mesh3d_bake_room(MESH3D_LENT(scene), node);
}

static inline mesh3d_baked mesh3d_scene_bake(const mesh3d_scene *scene, uint32_t node, float time,
                                             const mesh3d_scratch *scratch, const mesh3d_vertices *output) {
    return mesh3d_bake_floats(MESH3D_LENT(scene), node, time, MESH3D_POSE(MESH3D_OUT, scratch),
                              MESH3D_OUT(uint32_t, scratch, walk), MESH3D_OUT(uint32_t, scratch, places),
                              MESH3D_OUT(float, scratch, worlds), MESH3D_VERTICES(float, output));
}

/* A text is bytes of any type. */
static inline mesh3d_break mesh3d_text_break(const void *text, size_t text_len) {
    return mesh3d_find_break((const uint8_t *)mesh3d_in(text), text_len);
}

/* How long the tables must be that a text is read into. */
static inline mesh3d_needed mesh3d_tables_needed(const void *text, size_t text_len) {
    return mesh3d_text_room((const uint8_t *)mesh3d_in(text), text_len);
}

static inline mesh3d_reading mesh3d_tables_read(const mesh3d_tables *tables, const void *text, size_t text_len) {
    return mesh3d_read_scene((const uint8_t *)mesh3d_in(text), text_len, MESH3D_OUT(uint32_t, tables, words),
                             MESH3D_OUT(float, tables, floats), MESH3D_OUT(float, tables, node_weights),
                             MESH3D_OUT(float, tables, mesh_weights));
}

/* The scene that was read into tables, with the header of its reading. */
static inline mesh3d_scene mesh3d_tables_scene(const mesh3d_tables *tables, mesh3d_header header) {
    mesh3d_scene scene;
    scene.words = tables->words;
    scene.words_len = tables->words_len;
    scene.floats = tables->floats;
    scene.floats_len = tables->floats_len;
    scene.node_weights = tables->node_weights;
    scene.node_weights_len = tables->node_weights_len;
    scene.mesh_weights = tables->mesh_weights;
    scene.mesh_weights_len = tables->mesh_weights_len;
    scene.header = header;
    return scene;
}

static inline mesh3d_text_written mesh3d_scene_text_length(const mesh3d_scene *scene, uint32_t node, float time) {
    return mesh3d_text_length(MESH3D_LENT(scene), node, time);
}

static inline mesh3d_text_written mesh3d_scene_write(const mesh3d_scene *scene, uint32_t node, float time, void *out,
                                                     size_t out_len) {
    return mesh3d_write_scene(MESH3D_LENT(scene), node, time, (uint8_t *)mesh3d_out(out), out_len);
}

/* Codes and matrices are left in `scratch`. */
static inline mesh3d_placed mesh3d_byte_scene_place(const mesh3d_byte_scene *scene, const mesh3d_decoding *room,
                                                    const mesh3d_scratch *scratch, uint8_t *places, size_t places_len,
                                                    uint8_t *worlds, size_t worlds_len) {
    return mesh3d_place(MESH3D_SCENE(uint8_t, uint8_t, scene), MESH3D_OUT(uint32_t, room, word_room),
                        MESH3D_OUT(float, room, float_room), MESH3D_POSE(MESH3D_IN, scratch),
                        MESH3D_OUT(uint32_t, scratch, walk), MESH3D_OUT(uint32_t, scratch, places),
                        MESH3D_OUT(float, scratch, worlds), (uint8_t *)mesh3d_out(places), places_len,
                        (uint8_t *)mesh3d_out(worlds), worlds_len);
}

static inline mesh3d_baked mesh3d_byte_scene_bake(const mesh3d_byte_scene *scene, uint32_t node, uint32_t time,
                                                  const mesh3d_decoding *room, const mesh3d_scratch *scratch,
                                                  const mesh3d_vertices *output, const mesh3d_byte_vertices *bytes) {
    return mesh3d_bake(MESH3D_SCENE(uint8_t, uint8_t, scene), node, time, MESH3D_OUT(uint32_t, room, word_room),
                       MESH3D_OUT(float, room, float_room), MESH3D_POSE(MESH3D_OUT, scratch),
                       MESH3D_OUT(uint32_t, scratch, walk), MESH3D_OUT(uint32_t, scratch, places),
                       MESH3D_OUT(float, scratch, worlds), MESH3D_VERTICES(float, output),
                       MESH3D_VERTICES(uint8_t, bytes));
}

#define MESH3D_TRACK(type, track) \
    MESH3D_IN(type, track, floats), (track)->kind, (track)->interpolation, (track)->keys.at, (track)->keys.count, \
        (track)->values.at, (track)->values.count

static inline mesh3d_told mesh3d_track_sample(const mesh3d_track *track, float time, float value[4], float *out,
                                              size_t out_len) {
    return mesh3d_sample_floats(MESH3D_TRACK(float, track), time, value, (float *)mesh3d_out(out), out_len);
}

static inline mesh3d_told mesh3d_byte_track_sample(const mesh3d_byte_track *track, uint32_t time, float *room,
                                                   size_t room_len, uint8_t value[16], uint8_t *out, size_t out_len) {
    return mesh3d_sample(MESH3D_TRACK(uint8_t, track), time, (float *)mesh3d_out(room), room_len, value,
                         (uint8_t *)mesh3d_out(out), out_len);
}

static inline mesh3d_told mesh3d_track_frame(const mesh3d_track *track, uint32_t rows, size_t k, float *out,
                                             size_t out_len) {
    return mesh3d_frame_floats(MESH3D_TRACK(float, track), rows, k, (float *)mesh3d_out(out), out_len);
}

static inline size_t mesh3d_track_stride(const mesh3d_track *track) {
    return mesh3d_stride_floats(MESH3D_TRACK(float, track));
}

static inline void mesh3d_transform_vertices(const float m[16], const mesh3d_vertices *vertices) {
    mesh3d_transformed_floats(m, MESH3D_VERTICES(float, vertices));
}

/* The joints and weights that vertices are skinned with, by the matrices of a palette. */
typedef struct {
    const float *palette;
    size_t palette_len;
    const uint32_t *joints;
    size_t joints_len;
    const float *weights;
    size_t weights_len;
} mesh3d_influences;

static inline void mesh3d_skin_vertices(const mesh3d_influences *by, const mesh3d_vertices *vertices) {
    mesh3d_skinned_floats(MESH3D_IN(float, by, palette), MESH3D_IN(uint32_t, by, joints), MESH3D_IN(float, by, weights),
                          MESH3D_VERTICES(float, vertices));
}

static inline void mesh3d_morph_vertices(const mesh3d_scene *scene, mesh3d_part targets, const float *weights,
                                         size_t weights_len, const mesh3d_vertices *vertices) {
    mesh3d_morphed_floats(MESH3D_IN(uint32_t, scene, words), MESH3D_IN(float, scene, floats), scene->header, targets.at,
                          targets.count, (const float *)mesh3d_in(weights), weights_len,
                          MESH3D_VERTICES(float, vertices));
}

#undef MESH3D_IN
#undef MESH3D_OUT
#undef MESH3D_SCENE
#undef MESH3D_LENT
#undef MESH3D_POSE
#undef MESH3D_VERTICES
#undef MESH3D_TRACK

#ifdef __cplusplus
}
#endif

#endif
