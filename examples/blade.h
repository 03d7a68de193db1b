/* The shape of an oar in mm, x along it, y across the blade, z through it: a round loom, and the blade as a planed
   blank and as it is when finished. */
#ifndef BLADE_H
#define BLADE_H

#include "mesh3d.h"

#include <string.h>

/* A section has four sides: the back from one edge to the other, the edge, the face, the edge. Points at the corners
   stand twice, once for each side. */
enum { ACROSS = 9, AROUND = 2 * ACROSS + 4, STATIONS = 15, BLADE = STATIONS * AROUND };
enum { SIDES = 16, RINGS = 3, LOOM = RINGS * SIDES, LOOM_LENGTH = 2000 };
static const size_t side_starts[5] = {0, ACROSS, ACROSS + 2, 2 * ACROSS + 2, AROUND};

static const float blank_half_width = 72, blank_half_thickness = 20, loom_radius = 20;
static const float loom_rings[RINGS] = {0, LOOM_LENGTH - 80, LOOM_LENGTH};

/* The table of offsets: where a station is, half its width, the height of its middle over the loom's axis, the back
   above and the face below that middle, half the thickness of the edge, how far the edges bend towards the face, and
   how round the section is: 1 as the loom, 0 with a ridge. */
typedef struct {
    float x, half_width, middle, back, face, edge, dish, round;
} station;
static const station stations[STATIONS] = {
    {0, 20, 0, 20, 20, 0, 0, 1},
    {40, 23.5f, 0, 19.5f, 18.5f, 0.5f, 0, 0.85f},
    {80, 30, 0, 18.5f, 15, 1, 0.5f, 0.55f},
    {120, 39, -0.2f, 17.5f, 11, 1.5f, 1.2f, 0.33f},
    {160, 48.5f, -0.6f, 16.2f, 7.5f, 2, 2, 0.18f},
    {200, 57, -1.2f, 14.8f, 5, 2, 3, 0.08f},
    {250, 65, -2.2f, 13, 3, 2, 4.2f, 0},
    {300, 69, -3.4f, 11.2f, 2.2f, 2, 5.2f, 0},
    {350, 70, -4.9f, 9.5f, 2, 2, 6, 0},
    {400, 68.5f, -6.7f, 7.8f, 2, 2, 6.4f, 0},
    {440, 65.5f, -8.4f, 6.4f, 2, 2, 6.2f, 0},
    {465, 62, -9.6f, 5.5f, 2, 2, 5.6f, 0},
    {482, 57, -10.4f, 4.9f, 2, 2, 4.8f, 0},
    {493, 50.5f, -10.9f, 4.4f, 2, 2, 3.8f, 0},
    {500, 41, -11.3f, 4, 2, 2, 2.6f, 0},
};
/* Where the points of a side stand, as a share of the half width, and the height of a circle there. */
static const float shares[ACROSS] = {1, 0.72f, 0.42f, 0.18f, 0, -0.18f, -0.42f, -0.72f, -1};
static const float circle[ACROSS] = {0, 0.694f, 0.9075f, 0.9837f, 1, 0.9837f, 0.9075f, 0.694f, 0};
/* Of the sixteenths of a turn. */
static const float cosines[SIDES] = {1, 0.9238795f, 0.70710678f, 0.3826834f, 0, -0.3826834f, -0.70710678f,
                                     -0.9238795f, -1, -0.9238795f, -0.70710678f, -0.3826834f, 0, 0.3826834f,
                                     0.70710678f, 0.9238795f};

typedef float vec3[3];

/* How far the back stands out over its edges, and the face, as shares of what they do in the middle. */
static float swell(const station *s, size_t i, bool back) {
    float v = shares[i], rest = 1 - (v < 0 ? -v : v), dome = 1 - v * v;
    float ridge = 0.5f * (rest * rest) + 0.5f * (dome * dome);
    return s->round * circle[i] + (1 - s->round) * (back ? ridge : dome);
}

static void blade_point(const station *s, size_t k, bool finished, vec3 out) {
    bool back = k <= ACROSS || k == AROUND - 1;
    size_t i = k < ACROSS ? k : k < ACROSS + 2 ? ACROSS - 1 : k < 2 * ACROSS + 2 ? 2 * ACROSS + 1 - k : 0;
    float v = shares[i], middle = s->middle - s->dish * (v * v);
    out[0] = s->x;
    out[1] = v * (finished ? s->half_width : blank_half_width);
    if (!finished) out[2] = back ? blank_half_thickness : -blank_half_thickness;
    else if (back) out[2] = middle + s->edge + (s->back - s->edge) * swell(s, i, true);
    else out[2] = middle - s->edge - (s->face - s->edge) * swell(s, i, false);
}

/* The normal at a point, from its neighbours on the same side and at the stations before and behind. */
static void blade_normal(vec3 *points, size_t s, size_t k, vec3 out) {
    size_t side = 0, j;
    while (k >= side_starts[side + 1]) side++;
    const float *a = points[s * AROUND + (k > side_starts[side] ? k - 1 : k)];
    const float *b = points[s * AROUND + (k + 1 < side_starts[side + 1] ? k + 1 : k)];
    const float *c = points[(s > 0 ? s - 1 : s) * AROUND + k];
    const float *d = points[(s + 1 < STATIONS ? s + 1 : s) * AROUND + k];
    vec3 u, v;
    for (j = 0; j < 3; j++) u[j] = b[j] - a[j], v[j] = d[j] - c[j];
    vec3 n = {u[1] * v[2] - u[2] * v[1], u[2] * v[0] - u[0] * v[2], u[0] * v[1] - u[1] * v[0]};
    memset(out, 0, sizeof(vec3));
    mesh3d_normalize3(n, out);
}

static void make_blade(bool finished, vec3 points[BLADE], vec3 normals[BLADE]) {
    size_t i;
    for (i = 0; i < BLADE; i++) blade_point(&stations[i / AROUND], i % AROUND, finished, points[i]);
    for (i = 0; i < BLADE; i++) blade_normal(points, i / AROUND, i % AROUND, normals[i]);
}

static void make_loom(vec3 points[LOOM], vec3 normals[LOOM]) {
    for (size_t i = 0; i < LOOM; i++) {
        float c = cosines[i % SIDES], s = cosines[(i + 12) % SIDES];
        points[i][0] = loom_rings[i / SIDES], points[i][1] = loom_radius * c, points[i][2] = loom_radius * s;
        normals[i][0] = 0, normals[i][1] = c, normals[i][2] = s;
    }
}

/* The vertices of the loom or the blade at a time: in the world, and their places in the node's own frame. */
typedef struct {
    vec3 points[BLADE], normals[BLADE], own[BLADE];
} baked;

#endif
