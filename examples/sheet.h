/* One sheet of A4 in SVG, in mm: pictures of a baked oar, and templates of its blade's sections. */
#ifndef SHEET_H
#define SHEET_H

#include "blade.h"

#include <stdio.h>

enum { TIMES = 5, PICKED = 3, SHADES = 24 };
static const size_t picked[PICKED] = {3, 6, 9};
static const char *const letters[PICKED] = {"A", "B", "C"};
static const char *const times[TIMES] = {"0", "1/4", "1/2", "3/4", "1"};
static const char *const captions[TIMES] = {"time 0: blank", "time 1/4", "time 1/2", "time 3/4", "time 1: finished"};
static const char *const turned[TIMES] = {"feathered 0&#176;", "feathered 22.5&#176;", "feathered 45&#176;",
                                           "feathered 67.5&#176;", "feathered 90&#176;"};
/* In mm on the sheet. */
static const float picture_scale = 1 / 6.0f, picture_top = 41.5f, first_picture = 29, picture_gap = 38;
static const float template_middle = 84, first_template = 172.5f, template_gap = 44, measures = 162;

/* ---- the pen ---- */

/* In whole hundredths, half of one away from 0. */
static void put_number(float mm) {
    long n = (long)(mm * 100 + (mm < 0 ? -0.5f : 0.5f)), whole;
    if (n < 0) putchar('-'), n = -n;
    whole = n / 100, n %= 100;
    if (n == 0) printf("%ld", whole);
    else if (n % 10 == 0) printf("%ld.%ld", whole, n / 10);
    else printf("%ld.%02ld", whole, n);
}

static void put_point(char command, float x, float y) {
    putchar(command);
    put_number(x);
    putchar(' ');
    put_number(y);
}

static void start_text(float x, float y) {
    printf("<text x=\"");
    put_number(x);
    printf("\" y=\"");
    put_number(y);
}

static void put_text(float x, float y, const char *style, const char *words) {
    start_text(x, y);
    printf("\"%s>%s</text>\n", style, words);
}

/* A measure in words, as "78 mm wide". */
static void put_measure(float y, float mm, const char *words) {
    start_text(measures, y);
    printf("\">");
    put_number(mm);
    printf(" mm %s</text>\n", words);
}

/* ---- the pictures ---- */

/* Rings of points, as they are seen: right, down, towards the eye. */
typedef struct {
    size_t rings, around;
    vec3 points[BLADE], normals[BLADE];
} seen;

/* Seen from 60 degrees beside the blank's back, and from 20 degrees below the blade's tip. */
static void look(const vec3 p, vec3 out) {
    float right = 0.5f * p[1] + 0.8660254f * p[2], near = 0.5f * p[2] - 0.8660254f * p[1];
    out[0] = right;
    out[1] = 0.9396926f * p[0] - 0.3420201f * near;
    out[2] = 0.9396926f * near + 0.3420201f * p[0];
}

static void look_at_rings(const baked *b, size_t first, size_t rings, size_t around, float middle, seen *out) {
    out->rings = rings, out->around = around;
    for (size_t i = 0; i < rings * around; i++) {
        const float *p = b->points[first * around + i];
        const vec3 from_root = {p[0] - LOOM_LENGTH, p[1], p[2]};
        look(from_root, out->points[i]);
        look(b->normals[first * around + i], out->normals[i]);
        out->points[i][0] = middle + picture_scale * out->points[i][0];
        out->points[i][1] = picture_top + picture_scale * out->points[i][1];
    }
}

/* The corners of the panel between two rings, two points of each. */
static void panel(const seen *s, size_t ring, size_t k, size_t corners[4]) {
    size_t next = (k + 1) % s->around, a = ring * s->around, b = a + s->around;
    corners[0] = a + k, corners[1] = a + next, corners[2] = b + next, corners[3] = b + k;
}

/* Past the rings nothing does. */
static bool faces_us(const seen *s, size_t ring, size_t k) {
    size_t c[4];
    if (ring >= s->rings - 1) return false;
    panel(s, ring, k, c);
    const float *p = s->points[c[0]], *q = s->points[c[1]], *r = s->points[c[2]], *t = s->points[c[3]];
    return (r[0] - p[0]) * (t[1] - q[1]) - (r[1] - p[1]) * (t[0] - q[0]) < 0;
}

/* By the mean normal of its corners, with the light from above the eye. */
static size_t shade_of(const seen *s, const size_t c[4]) {
    vec3 sum, n = {0, 0, 0};
    for (size_t j = 0; j < 3; j++)
        sum[j] = s->normals[c[0]][j] + s->normals[c[1]][j] + s->normals[c[2]][j] + s->normals[c[3]][j];
    mesh3d_normalize3(sum, n);
    float light = 1.6f * (0.95f * n[2] - 0.1f * n[0] - 0.3f * n[1]) - 0.6f;
    return light <= 0 ? 0 : light >= 0.99f ? SHADES - 1 : (size_t)(light * SHADES);
}

/* Starts a path in the colour of a shade; a line of the same colour closes the gaps between panels. */
static void put_colour(size_t shade) {
    unsigned lit = (unsigned)shade, most = SHADES - 1;
    unsigned red = 200 + 53 * lit / most, green = 168 + 78 * lit / most, blue = 118 + 116 * lit / most;
    printf("<path fill=\"#%02x%02x%02x\" stroke=\"#%02x%02x%02x\"", red, green, blue, red, green, blue);
    printf(" stroke-width=\".1\" d=\"");
}

/* All panels of one shade that face us. */
static void put_panels(const seen *s, size_t shade) {
    size_t c[4], found = 0;
    for (size_t i = 0; i < (s->rings - 1) * s->around; i++) {
        panel(s, i / s->around, i % s->around, c);
        if (!faces_us(s, i / s->around, i % s->around) || shade_of(s, c) != shade) continue;
        if (found++ == 0) put_colour(shade);
        for (size_t j = 0; j < 4; j++) put_point(j == 0 ? 'M' : 'L', s->points[c[j]][0], s->points[c[j]][1]);
        putchar('Z');
    }
    if (found > 0) printf("\"/>\n");
}

/* Goes on from point a to b where that is drawn; `on` says whether the pen is down at a. */
static void step(const float *a, const float *b, bool drawn, bool *on) {
    if (drawn && !*on) put_point('M', a[0], a[1]);
    if (drawn) put_point('L', b[0], b[1]);
    *on = drawn;
}

/* A ring where a panel beside it faces us or, as an outline, where just one of the two does. */
static void put_ring(const seen *s, size_t ring, bool outline) {
    const vec3 *at = s->points + ring * s->around;
    bool on = false;
    for (size_t k = 0; k < s->around; k++) {
        bool above = faces_us(s, ring - 1, k), below = faces_us(s, ring, k);
        step(at[k], at[(k + 1) % s->around], outline ? above != below : above || below, &on);
    }
}

/* The line along the oar through points k, where just one of the panels beside it faces us. */
static void put_length(const seen *s, size_t k) {
    bool on = false;
    for (size_t ring = 0; ring + 1 < s->rings; ring++) {
        bool left = faces_us(s, ring, (k + s->around - 1) % s->around), right = faces_us(s, ring, k);
        step(s->points[ring * s->around + k], s->points[(ring + 1) * s->around + k], left != right, &on);
    }
}

/* The end towards the tip, which is always seen. */
static void put_end(const seen *s) {
    const vec3 *at = s->points + (s->rings - 1) * s->around;
    printf("<path fill=\"#d9bc8c\" stroke=\"#222\" stroke-width=\".22\" stroke-linejoin=\"round\" d=\"");
    for (size_t k = 0; k < s->around; k++) put_point(k == 0 ? 'M' : 'L', at[k][0], at[k][1]);
    printf("Z\"/>\n");
}

static void put_body(const seen *s) {
    for (size_t shade = 0; shade < SHADES; shade++) put_panels(s, shade);
    put_end(s);
    printf("<path fill=\"none\" stroke=\"#222\" stroke-width=\".22\" stroke-linejoin=\"round\" d=\"");
    for (size_t ring = 0; ring < s->rings; ring++) put_ring(s, ring, true);
    for (size_t k = 0; k < s->around; k++) put_length(s, k);
    printf("\"/>\n");
}

/* The blade's stations, and strong those of the templates. */
static void put_stations(const seen *s) {
    printf("<path fill=\"none\" stroke=\"#222\" stroke-width=\".1\" d=\"");
    for (size_t ring = 1; ring + 1 < s->rings; ring++) put_ring(s, ring, false);
    printf("\"/>\n<path fill=\"none\" stroke=\"#a00\" stroke-width=\".35\" d=\"");
    for (size_t j = 0; j < PICKED; j++) put_ring(s, picked[j], false);
    printf("\"/>\n");
}

/* Words beside the right end of a ring. */
static void put_name(const seen *s, size_t ring, const char *style, const char *words) {
    const vec3 *points = s->points + ring * s->around;
    const float *end = points[0];
    for (size_t k = 1; k < s->around; k++) end = points[k][0] > end[0] ? points[k] : end;
    put_text(end[0] + 1.2f, end[1] + 1, style, words);
}

static void put_picture(const baked *loom, const baked *blade, size_t i) {
    static seen s;
    float middle = first_picture + picture_gap * (float)i;
    look_at_rings(loom, 1, 2, SIDES, middle, &s);
    put_body(&s);
    look_at_rings(blade, 0, STATIONS, AROUND, middle, &s);
    put_body(&s);
    put_stations(&s);
    put_name(&s, 0, " font-size=\"2.5\"", "root");
    for (size_t j = 0; j < PICKED; j++) put_name(&s, picked[j], " fill=\"#a00\"", letters[j]);
    put_text(middle, 130.5f, " text-anchor=\"middle\" font-size=\"4\"", captions[i]);
    put_text(middle, 135, " text-anchor=\"middle\"", turned[i]);
}

/* ---- the templates ---- */

/* A fair curve through the points of one side of a section. */
static void put_side(const vec3 *p, size_t first, size_t last, float x, float y) {
    for (size_t i = first; i < last; i++) {
        const float *a = p[i > first ? i - 1 : i], *b = p[i], *c = p[i + 1], *d = p[i + 2 <= last ? i + 2 : last];
        put_point('C', x + (b[1] + (c[1] - a[1]) / 6), y - (b[2] + (c[2] - a[2]) / 6));
        put_point(' ', x + (c[1] - (d[1] - b[1]) / 6), y - (c[2] - (d[2] - b[2]) / 6));
        put_point(' ', x + c[1], y - c[2]);
    }
}

static void put_section(const vec3 *p, const char *style, float y) {
    printf("<path stroke=\"#000\"%s d=\"", style);
    put_point('M', template_middle + p[0][1], y - p[0][2]);
    for (size_t side = 0; side < 4; side++)
        put_side(p, side_starts[side], side_starts[side + 1] - 1, template_middle, y);
    printf("Z\"/>\n");
}

/* Times on the lines of the back, but that of the finished blade below its line, which is cut along. */
static void put_times(const baked blade[TIMES], size_t point, float y) {
    for (size_t i = 0; i < TIMES; i++) {
        const float *p = blade[i].own[point];
        float x = template_middle + p[1], line = y - p[2] + (i + 1 < TIMES ? 0.9f : 3.4f);
        if (i + 1 < TIMES)
            put_text(x, line, " text-anchor=\"middle\" stroke=\"#fff\" stroke-width=\".9\"", times[i]);
        put_text(x, line, " text-anchor=\"middle\"", times[i]);
    }
}

static void put_template(const baked blade[TIMES], size_t j) {
    float y = first_template + template_gap * (float)j;
    const vec3 *p = blade[TIMES - 1].own + picked[j] * AROUND;
    put_section(p, " fill=\"#faf2e4\" stroke-width=\".4\"", y);
    for (size_t i = 0; i + 1 < TIMES; i++)
        put_section(blade[i].own + picked[j] * AROUND, " fill=\"none\" stroke-width=\".15\"", y);
    printf("<path stroke=\"#000\" stroke-width=\".1\" stroke-dasharray=\"6 1 1 1\" d=\"");
    put_point('M', template_middle - 74, y);
    printf("h148");
    put_point('M', template_middle, y - 21.5f);
    printf("v43\"/>\n");
    put_times(blade, picked[j] * AROUND + 1, y);
    put_text(measures, y - 11, " fill=\"#a00\" font-size=\"8\" font-weight=\"bold\"", letters[j]);
    put_measure(y - 4, p[0][0], "from the root");
    put_text(measures, y + 3, "", "Finished:");
    put_measure(y + 7.5f, p[0][1] - p[ACROSS - 1][1], "wide");
    put_measure(y + 12, p[ACROSS / 2][2] - p[ACROSS + 2 + ACROSS / 2][2], "in the middle");
    put_measure(y + 16.5f, p[ACROSS][2] - p[ACROSS + 1][2], "at the edges");
}

/* How large a blank is planed: length, width, thickness. */
static void put_blank(const vec3 *p) {
    start_text(200, 144);
    printf("\" text-anchor=\"end\">Blank: ");
    put_number(p[BLADE - 1][0] - p[0][0]);
    printf(" &#215; ");
    put_number(p[0][1] - p[ACROSS - 1][1]);
    printf(" &#215; ");
    put_number(p[ACROSS][2] - p[ACROSS + 1][2]);
    printf(" mm</text>\n");
}

/* ---- the sheet ---- */

static const char head[] =
    "<svg xmlns=\"http://www.w3.org/2000/svg\" version=\"1.1\" width=\"210mm\" height=\"297mm\""
    " viewBox=\"0 0 210 297\">\n"
    "<title>Oar blade, from blank to finished</title>\n"
    "<rect width=\"210\" height=\"297\" fill=\"#fff\"/>\n"
    "<g font-family=\"sans-serif\" font-size=\"3\" fill=\"#000\">\n"
    "<text x=\"10\" y=\"16\" font-size=\"6.5\" font-weight=\"bold\">Oar blade, from blank to finished</text>\n"
    "<text x=\"10\" y=\"22\">The blade at five times, at 1 : 6, while it is shaped and the oar is feathered by a"
    " quarter turn. Lines across are stations.</text>\n"
    "<text x=\"10\" y=\"144\" font-size=\"4.5\" font-weight=\"bold\">Section templates, 1 : 1</text>\n"
    "<text x=\"10\" y=\"149\">Seen from the tip, back up. Strong: the finished blade. Thin: from the blank on, by"
    " their times. Dash-dotted: the loom's axis.</text>\n";
static const char foot[] =
    "<path stroke=\"#000\" stroke-width=\".3\""
    " d=\"M12 287h50M12 285v4M22 286v2M32 286v2M42 286v2M52 286v2M62 285v4\"/>\n"
    "<text x=\"66\" y=\"288\">50 mm: lay a ruler on this line. If it differs, print again at 100 %, not fitted to the"
    " page.</text>\n</g>\n</svg>\n";

static void put_sheet(const baked loom[TIMES], const baked blade[TIMES]) {
    fputs(head, stdout);
    for (size_t i = 0; i < TIMES; i++) put_picture(&loom[i], &blade[i], i);
    put_blank(blade[0].own);
    for (size_t j = 0; j < PICKED; j++) put_template(blade, j);
    fputs(foot, stdout);
}

#endif
