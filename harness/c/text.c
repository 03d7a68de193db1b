/* The words of the C library: refusals, reasons and faults as sentences. docs/TABLES.md has the words of each
   record. */
#include "mesh3d.h"

#include <stdio.h>

#define COUNT(list) (sizeof(list) / sizeof((list)[0]))

const char *mesh3d_refusal_text(uint32_t number) {
    static const char *const texts[] = {
        "accepted",
        "out of table: an offset or count leaves the slice or table that it lies in",
        "over a limit, or a mark or tag that names nothing",
        "no time: the time is NaN",
        "uneven track: its values do not divide into a frame for each key",
        "keys out of line: one is not finite, or not above the one before",
        "short scratch room: walk room, pose slots, world slots, or room to decode bytes into",
        "no such node or, where a mesh is read, no mesh",
        "unplaced: no path leads to the node from a root",
        "no palette: no skin, a bad skin or skeleton id, too few inverse binds, or a joint that is bad or unplaced",
        "short output",
        "no common root of the joints",
        "no such frame",
        "bad form: the text has no reading",
    };
    return number < COUNT(texts) ? texts[number] : "no such refusal number";
}

const char *mesh3d_reason_text(uint32_t reason) {
    static const char *const texts[] = {
        "the channel gives a value",
        "it is aimed past the last node",
        "its layout is not even: its values do not divide into a frame for each key",
        "the kind of its values does not fit its property",
        "its rotation has no length to divide by at this time",
    };
    return reason < COUNT(texts) ? texts[reason] : "no such reason";
}

/* What is wrong where a word of a record draws a number; null for a word of which nothing is asked. */
static const char *const of_node[16] = {
    "the form of its base transform is neither 0 (parts) nor 1 (matrix)",
    "its base transform leaves the floats",
    "its child list leaves the words",
    "with its children there are more than 8,192 child entries",
    "the mark of its mesh is neither 0 nor 1",
    NULL,
    "the mark of its skin is neither 0 nor 1",
    NULL,
    "the mark of its morph weights is neither 0 nor 1",
    "its morph weights leave the node weights",
};

static const char *const of_channel[16] = {
    NULL,
    "its property is above 3",
    "the kind of its values is above 2",
    "its interpolation is above 2",
    "its keys leave the floats",
    "it has more than 65,535 keys",
    "its values leave the floats",
    "it has more than 64 weights a frame",
};

static const char *const of_mesh[16] = {
    "its primitives leave their table",
    "it has more than 64 primitives",
    "its weights leave the mesh weights",
};

static const char *const of_primitive[16] = {
    "its positions leave the floats",
    "it has more than 65,535 positions",
    "the mark of its normals is neither 0 nor 1",
    "its normals leave the floats",
    "it has more than 65,535 normals",
    "the mark of its tangents is neither 0 nor 1",
    "its tangents leave the floats",
    "it has more than 65,535 tangents",
    "the mark of its joints is neither 0 nor 1",
    "its joints leave the words",
    "it has more than 65,535 rows of joints",
    "the mark of its joint weights is neither 0 nor 1",
    "its joint weights leave the floats",
    "it has more than 65,535 rows of joint weights",
    "its morph targets leave their table",
    "it has more than 64 morph targets",
};

static const char *const of_target[16] = {
    "the mark of its position deltas is neither 0 nor 1",
    "its position deltas leave the floats",
    "it has more than 65,535 position deltas",
    "the mark of its normal deltas is neither 0 nor 1",
    "its normal deltas leave the floats",
    "it has more than 65,535 normal deltas",
    "the mark of its tangent deltas is neither 0 nor 1",
    "its tangent deltas leave the floats",
    "it has more than 65,535 tangent deltas",
    "its in-betweens leave their table",
    "it has more than 16 in-betweens",
};

static const char *const of_in_between[16] = {
    "its weight lies past the floats",
    "the mark of its position deltas is neither 0 nor 1",
    "its position deltas leave the floats",
    "it has more than 65,535 position deltas",
    "the mark of its normal deltas is neither 0 nor 1",
    "its normal deltas leave the floats",
    "it has more than 65,535 normal deltas",
};

static const char *const of_skin[16] = {
    NULL,
    "the mark of its named root is neither 0 nor 1",
};

static const char *const of_skeleton[16] = {
    "its joints leave the words",
    "it has more than 256 joints",
    "its inverse binds leave the floats",
};

/* A table, one of its records, and the words of that. */
static const struct {
    const char *table;
    const char *record;
    const char *const *words;
} tables[] = {
    {"nodes", "node", of_node},
    {"roots", NULL, NULL},
    {"channels", "channel", of_channel},
    {"meshes", "mesh", of_mesh},
    {"primitives", "primitive", of_primitive},
    {"morph targets", "morph target", of_target},
    {"in-betweens", "in-between", of_in_between},
    {"skins", "skin", of_skin},
    {"skeletons", "skeleton", of_skeleton},
};

static int described(mesh3d_fault fault, char *text, size_t text_len) {
    if (fault.number == MESH3D_ACCEPTED) return snprintf(text, text_len, "no fault");
    if (fault.table < COUNT(tables)) {
        const char *name = tables[fault.table].table, *record = tables[fault.table].record;
        const char *const *words = tables[fault.table].words;
        if (fault.word == MESH3D_TABLE_ITSELF && fault.number == MESH3D_SHORT_STOCK)
            return snprintf(text, text_len, "the table of %s leaves the words", name);
        if (fault.word == MESH3D_TABLE_ITSELF) return snprintf(text, text_len, "there are more than 1,024 %s", name);
        if (words && fault.word < 16 && words[fault.word])
            return snprintf(text, text_len, "%s %zu, word %u: %s", record, fault.record, (unsigned)fault.word,
                            words[fault.word]);
    }
    return snprintf(text, text_len, "no such fault");
}

size_t mesh3d_fault_text(mesh3d_fault fault, char *text, size_t text_len) {
    int length = described(fault, text, text_len);
    return length < 0 ? 0 : (size_t)length;
}
