/* Measures and paints a small ticket, patches it, draws it call by call, blends a pixel, counts steps, does the same within a wider frame,
 * patches shapes under clips, lets a trace grow, takes every small clip order, takes boxes through a panel's registers, and checks every answer.
 * The counts are worked out by hand, or by the pixels that differ.
 *
 *   cc -std=c11 -Wall -Wextra -Werror -I bindings/c bindings/c/example.c -L target/staticlib -lmaldjupp -o example */
#include "maldjupp.h"

#include <stdio.h>
#include <stdlib.h>
#include <string.h>

enum { W = 24, H = 16, MOST = 2048, ITEMS = 33, LARGEST = 12 + 1024 * (4 + 52) };

/* A sheet of up to 33 items: their bytes, and where each ends. */
struct sheet {
    uint8_t body[MOST];
    size_t ends[ITEMS];
    size_t items, length;
};

static void byte(struct sheet *s, uint32_t value) { s->body[s->length++] = (uint8_t)value; }

static void word(struct sheet *s, uint32_t value) {
    for (int i = 0; i < 4; i++) byte(s, value >> (8 * i));
}

static void number(struct sheet *s, float value) {
    uint32_t bits;
    memcpy(&bits, &value, sizeof bits);
    word(s, bits);
}

static void colour(struct sheet *s, uint32_t rgb) {
    byte(s, rgb >> 16), byte(s, rgb >> 8), byte(s, rgb), byte(s, 255);
}

/* A paint of one colour: kind 0, the colour, and 20 zero bytes. */
static void solid(struct sheet *s, uint32_t rgb) {
    word(s, 0), colour(s, rgb);
    for (int i = 0; i < 5; i++) word(s, 0);
}

static void end(struct sheet *s) { s->ends[s->items++] = s->length; }

static void fill(struct sheet *s, float x, float y, float w, float h, uint32_t rgb) {
    word(s, 3), number(s, x), number(s, y), number(s, w), number(s, h), number(s, 0), solid(s, rgb), end(s);
}

static void push(struct sheet *s, float x, float y, float w, float h) {
    word(s, 1), number(s, x), number(s, y), number(s, w), number(s, h), end(s);
}

static void pop(struct sheet *s) { word(s, 2), end(s); }

static void triangle(struct sheet *s, float x, float y, float side, uint32_t rgb) {
    word(s, 6 | 3 << 16), solid(s, rgb);
    number(s, x), number(s, y), number(s, x + side), number(s, y), number(s, x), number(s, y + side), end(s);
}

/* Header, pairs of offset and length, items. */
static size_t bytes_of(const struct sheet *s, uint32_t w, uint32_t h, uint32_t ground, uint8_t out[MOST]) {
    struct sheet o = {.length = 0};
    size_t start = 0, first = 12 + 4 * s->items;
    word(&o, w | h << 16), colour(&o, ground), o.body[7] = 0, word(&o, (uint32_t)s->items);
    for (size_t i = 0; i < s->items; start = s->ends[i++]) word(&o, (uint32_t)(first + start) | (uint32_t)(s->ends[i] - start) << 16);
    memcpy(out, o.body, o.length);
    memcpy(out + o.length, s->body, s->length);
    return o.length + s->length;
}

static const uint32_t copper = 0xB87333, brass = 0xC9AE5D;

/* Paper with a patch of a colour, a bar of a length and a corner. */
static size_t ticket(uint32_t grade, float bar, uint8_t out[MOST]) {
    struct sheet s = {.length = 0};
    fill(&s, 1, 1, 22, 14, 0xFDFCF8);
    fill(&s, 3, 3, 5, 5, grade);
    fill(&s, 3, 11, bar, 2, 0x207A4E);
    triangle(&s, 17, 3, 4, 0x3A6292);
    return bytes_of(&s, W, H, 0xDEDBD2, out);
}

/* So many fills of a width, one over the other. */
static size_t pile(size_t n, float width, uint8_t out[MOST]) {
    struct sheet s = {.length = 0};
    for (size_t i = 0; i < n; i++) fill(&s, 2, 2, width, 3, 0x207A4E);
    return bytes_of(&s, W, H, 0xDEDBD2, out);
}

/* The largest canvas with 1,024 fills of all of it. */
static void largest(uint8_t out[LARGEST]) {
    struct sheet s = {.length = 0};
    word(&s, 2048 | 2048 << 16), word(&s, 0), word(&s, 1024), fill(&s, 0, 0, 2048, 2048, 0x207A4E);
    memcpy(out, s.body, 12);
    for (size_t i = 0, at = 12 + 4 * 1024; i < 1024; i++, at += 52) {
        const uint8_t pair[] = {(uint8_t)at, (uint8_t)(at >> 8), 52, 0};
        memcpy(out + 12 + 4 * i, pair, 4), memcpy(out + at, s.body + 12, 52);
    }
}

/* Places of a trace, up and down across the paper. */
static float column(size_t i) { return 3 + 2.5f * (float)(i % 8); }

static float row(size_t i) { return 3 + (float)(i * 7 % 10); }

/* A width of 2, and an ink of alpha 128, with which joints show. */
static void pen(struct sheet *s) { number(s, 2), byte(s, 36), byte(s, 66), byte(s, 104), byte(s, 128); }

static void line(struct sheet *s, float ax, float ay, float bx, float by) {
    word(s, 5), number(s, ax), number(s, ay), number(s, bx), number(s, by), pen(s), end(s);
}

/* Paper with a trace of so many points, as one polyline. */
static size_t trace(size_t points, uint8_t out[MOST]) {
    struct sheet s = {.length = 0};
    fill(&s, 1, 1, 22, 14, 0xFDFCF8);
    word(&s, 8 | (uint32_t)points << 16), pen(&s);
    for (size_t i = 0; i < points; i++) number(&s, column(i)), number(&s, row(i));
    end(&s);
    return bytes_of(&s, W, H, 0xDEDBD2, out);
}

/* The same, as a line from each point to the next. */
static size_t trace_lines(size_t points, uint8_t out[MOST]) {
    struct sheet s = {.length = 0};
    fill(&s, 1, 1, 22, 14, 0xFDFCF8);
    for (size_t i = 1; i < points; i++) line(&s, column(i - 1), row(i - 1), column(i), row(i));
    return bytes_of(&s, W, H, 0xDEDBD2, out);
}

/* The canvas of the calls below, and its pixels. */
static struct maldjupp_canvas canvas;
static uint32_t px2[W * H];

/* Goes on with the state that a call returned, and says whether it was accepted. */
static int took(struct maldjupp_done d) {
    canvas = d.canvas;
    return d.number == MALDJUPP_ACCEPTED;
}

/* A shape's answer without its count. */
static struct maldjupp_done uncounted(struct maldjupp_counted c) {
    struct maldjupp_done d = {c.number, c.canvas};
    return d;
}

/* How many steps of the shape drawn last altered a pixel. */
static uint64_t counted;

static int drew(struct maldjupp_counted c) {
    counted = c.steps;
    return took(uncounted(c));
}

static struct maldjupp_color hex(uint32_t rgb) { return maldjupp_rgb((uint8_t)(rgb >> 16), (uint8_t)(rgb >> 8), (uint8_t)rgb); }

static int fill_call(float x, float y, float w, float h, uint32_t rgb) {
    struct maldjupp_rect rect = {x, y, w, h};
    return drew(maldjupp_fill_rect(canvas, px2, W * H, rect, maldjupp_solid(hex(rgb))));
}

/* The ticket of `ticket`, call by call. */
static int ticket_calls(uint32_t grade, float bar, float *scratch, size_t words) {
    const float corner[] = {17, 3, 21, 3, 17, 7};
    return took(maldjupp_new(W, H, W, px2, W * H)) && took(maldjupp_clear(canvas, px2, W * H, hex(0xDEDBD2))) &&
           fill_call(1, 1, 22, 14, 0xFDFCF8) && fill_call(3, 3, 5, 5, grade) && fill_call(3, 11, bar, 2, 0x207A4E) &&
           drew(maldjupp_fill_poly(canvas, px2, W * H, corner, 6, maldjupp_solid(hex(0x3A6292)), scratch, words));
}

static int failed;

static void check(const char *what, int sound) {
    printf("%-52s %s\n", what, sound ? "ok" : "FAILED");
    failed += !sound;
}

static int is(struct maldjupp_reply r, uint32_t number, uint32_t item, int32_t x0, int32_t y0, int32_t x1, int32_t y1, uint64_t steps,
              uint64_t grounded) {
    return r.number == number && r.item == item && r.x0 == x0 && r.y0 == y0 && r.x1 == x1 && r.y1 == y1 && r.steps == steps &&
           r.grounded == grounded;
}

static int is_refused(struct maldjupp_reply r, uint32_t number, uint32_t item) { return is(r, number, item, 0, 0, 0, 0, 0, 0); }

static int is_altered(struct maldjupp_reply r, int32_t x0, int32_t y0, int32_t x1, int32_t y1, uint64_t steps, uint64_t grounded) {
    return is(r, MALDJUPP_ACCEPTED, 0, x0, y0, x1, y1, steps, grounded);
}

static int is_room(struct maldjupp_room r, uint32_t number, uint32_t item, size_t words, size_t saved, uint64_t pixels) {
    return r.number == number && r.item == item && r.words == words && r.saved == saved && r.pixels == pixels;
}

static int is_box(struct maldjupp_boxed b, uint32_t number, int32_t x0, int32_t y0, int32_t x1, int32_t y1) {
    return b.number == number && b.area.x0 == x0 && b.area.y0 == y0 && b.area.x1 == x1 && b.area.y1 == y1;
}

/* Whether a call was refused by a number and gave the canvas back; a shape with a count of 0. */
static int refused(struct maldjupp_done d, uint32_t number) { return d.number == number && memcmp(&d.canvas, &canvas, sizeof canvas) == 0; }

static int refused_shape(struct maldjupp_counted c, uint32_t number) { return c.steps == 0 && refused(uncounted(c), number); }

/* In how many places two lists of pixels differ. */
static uint64_t differing(const uint32_t *a, const uint32_t *b, size_t pixels) {
    uint64_t count = 0;
    for (size_t i = 0; i < pixels; i++) count += a[i] != b[i];
    return count;
}

/* What painting takes: each figure, scratch that is just enough, and refusals. */
static void rooms(void) {
    static uint8_t sheet[LARGEST];
    static uint32_t px[W * H];
    static float scratch[50];
    struct sheet s = {.length = 0};
    size_t n = bytes_of(&s, W, H, 0xDEDBD2, sheet);
    check("measured without items: zeros", is_room(maldjupp_measure(sheet, n), MALDJUPP_ACCEPTED, 0, 0, 0, 0));
    push(&s, 0, 0, W, 8), push(&s, 4, 0, 9, 9), pop(&s), fill(&s, 2, 2, 10, 10, 0x207A4E), triangle(&s, 17, 3, 4, 0x3A6292);
    n = bytes_of(&s, W, H, 0xDEDBD2, sheet);
    /* The triangle's box is 4 by 4, made 2 larger: (6 + 2) * 6 + 2 words. The clip leaves 10 by 6 of the fill. */
    check("50 words, 2 clips at once, 60 and 36 pixels", is_room(maldjupp_measure(sheet, n), MALDJUPP_ACCEPTED, 0, 50, 2, 60 + 36));
    /* Of the triangle, 4, 3, 2 and 1 pixels of a row are covered, the last of each by half. */
    check("so many words are enough", is_altered(maldjupp_paint(sheet, n, W, px, W * H, scratch, 50), 0, 0, W, H, 60 + 10, W * H));
    check("one fewer: refused 9", is_refused(maldjupp_paint(sheet, n, W, px, W * H, scratch, 49), MALDJUPP_SCRATCH, 0));
    check("11 bytes measured: refused 1, three zeros", is_room(maldjupp_measure(sheet, 11), MALDJUPP_SHEET_LENGTH, 0, 0, 0, 0));
    for (int i = 0; i < 16; i++) push(&s, 0, 0, W, H);
    n = bytes_of(&s, W, H, 0xDEDBD2, sheet);
    check("17 clips measured: refused 7 at item 21, three zeros", is_room(maldjupp_measure(sheet, n), MALDJUPP_CLIPS, 21, 0, 0, 0));
    largest(sheet);
    check("1,024 fills of 2,048 by 2,048: 2^32 pixels", is_room(maldjupp_measure(sheet, LARGEST), MALDJUPP_ACCEPTED, 0, 0, 0, (uint64_t)1 << 32));
}

/* Clips, shapes and refusals on the canvas of the ticket. */
static void calls(void) {
    static uint32_t lines[W * H], before[W * H];
    const struct maldjupp_rect rect = {2.5f, 2, 9, 9};
    const struct maldjupp_pt a = {2, 3}, b = {20, 5}, c = {8, 14};
    const float way[] = {2, 3, 20, 5, 8, 14};
    const struct maldjupp_color red = maldjupp_rgba(255, 0, 0, 128);
    check("the whole canvas is bounds and clip", is_box(maldjupp_bounds(canvas), 0, 0, 0, W, H) && is_box(maldjupp_clip(canvas), 0, 0, 0, W, H));
    check("a clip is pushed", took(maldjupp_push_clip(canvas, rect)) && is_box(maldjupp_clip(canvas), 0, 2, 2, 12, 11));
    memcpy(before, px2, sizeof px2), memcpy(lines, px2, sizeof px2);
    struct maldjupp_counted both = maldjupp_polyline(canvas, px2, W * H, way, 6, 2, red);
    struct maldjupp_counted one = maldjupp_line(canvas, lines, W * H, a, b, 2, red);
    uint64_t altered = differing(lines, before, W * H);
    struct maldjupp_counted other = maldjupp_line(canvas, lines, W * H, b, c, 2, red);
    check("a polyline under it is its lines",
          drew(both) && drew(one) && drew(other) && memcmp(px2, lines, sizeof px2) == 0 && memcmp(px2, before, sizeof px2) != 0);
    check("so is its count", one.steps == altered && one.steps > 0 && other.steps > 0 && both.steps == one.steps + other.steps);
    check("no pixel outside it is altered", px2[3 * W + 12] == before[3 * W + 12] && px2[11 * W + 8] == before[11 * W + 8]);
    check("a pixel is read, the nearest inside",
          maldjupp_get(canvas, px2, W * H, 4, 3).value == px2[3 * W + 4] && maldjupp_get(canvas, px2, W * H, 99, -9).value == px2[W - 1]);

    struct maldjupp_brush brush = maldjupp_linear(a, b, red, red);
    memcpy(before, px2, sizeof px2), brush.kind = 4;
    check("a brush of kind 4: refused 5", refused_shape(maldjupp_fill_rect(canvas, px2, W * H, rect, brush), MALDJUPP_ZERO_BYTE));
    check("a radius of 8,193: refused 6", refused_shape(maldjupp_ring(canvas, px2, W * H, 5, 5, 8193, 1, red), MALDJUPP_FLOAT));
    check("an odd count of coordinates: refused 13", refused_shape(maldjupp_polyline(canvas, px2, W * H, way, 5, 2, red), MALDJUPP_POINTS));
    check("a pixel too few: refused 8", refused(maldjupp_clear(canvas, px2, W * H - 1, red), MALDJUPP_PIXELS));
    check("a side over 2,048: refused 2", refused(maldjupp_resize(canvas, 2049, H, px2, W * H), MALDJUPP_HEADER));
    canvas.saved[9].y1 = 1;
    check("an unused place filled: refused 12", refused_shape(maldjupp_stroke_rrect(canvas, px2, W * H, rect, 1, 1, red), MALDJUPP_STATE));
    check("refused, nothing is altered", memcmp(px2, before, sizeof px2) == 0);
    canvas.saved[9].y1 = 0;
    check("the clip is popped", took(maldjupp_pop_clip(canvas)) && is_box(maldjupp_clip(canvas), 0, 0, 0, W, H));
}

static uint32_t at(int32_t x, int32_t y) { return maldjupp_get(canvas, px2, W * H, x, y).value; }

/* The other brushes and shapes. */
static void shapes(void) {
    static uint32_t before[W * H];
    const struct maldjupp_color white = hex(0xFFFFFF), black = hex(0);
    const struct maldjupp_rect all = {0, 0, W, H}, inner = {4, 4, 16, 8};
    const struct maldjupp_pt left = {0, 0}, right = {W, 0}, middle = {12, 8};
    const struct maldjupp_box half = {-5, -5, 12, 99};
    check("a gradient from top to bottom",
          drew(maldjupp_fill_rect(canvas, px2, W * H, all, maldjupp_vgrad(0, H, black, white))) &&
              at(0, 0) == at(23, 0) && at(0, 0) < at(0, 15));
    check("a gradient from left to right",
          drew(maldjupp_fill_rect(canvas, px2, W * H, all, maldjupp_linear(left, right, black, white))) &&
              at(0, 0) == at(0, 15) && at(0, 0) < at(23, 0));
    check("a gradient from the middle",
          drew(maldjupp_fill_rect(canvas, px2, W * H, all, maldjupp_radial(middle, 12, black, white))) &&
              at(20, 8) == at(3, 8) && at(12, 8) < at(20, 8));
    check("a circle, cut to its left half",
          took(maldjupp_clear(canvas, px2, W * H, white)) && took(maldjupp_push_clip_i(canvas, half)) &&
              drew(maldjupp_fill_circle(canvas, px2, W * H, 12, 8, 6, maldjupp_solid(black))) && took(maldjupp_pop_clip(canvas)) &&
              at(11, 8) == 0 && at(12, 8) == 0xFFFFFF && at(6, 3) == 0xFFFFFF);
    check("round corners", drew(maldjupp_fill_rrect(canvas, px2, W * H, inner, 4, maldjupp_solid(black))) && at(4, 4) == 0xFFFFFF && at(5, 8) == 0);
    check("an outline, inside its edge",
          took(maldjupp_clear(canvas, px2, W * H, white)) && drew(maldjupp_stroke_rrect(canvas, px2, W * H, inner, 0, 2, black)) &&
              at(5, 8) == 0 && at(6, 8) == 0xFFFFFF && at(3, 8) == 0xFFFFFF);
    check("a ring", took(maldjupp_clear(canvas, px2, W * H, white)) && drew(maldjupp_ring(canvas, px2, W * H, 12, 8, 6, 2, black)) &&
                        at(7, 8) == 0 && at(12, 8) == 0xFFFFFF && at(4, 8) == 0xFFFFFF);
    check("a shadow without its middle",
          drew(maldjupp_shadow_rrect(canvas, px2, W * H, inner, 1, 2, black, 1)) && at(12, 8) == 0xFFFFFF && at(4, 8) < 0xFFFFFF);
    check("and with it", drew(maldjupp_shadow_rrect(canvas, px2, W * H, inner, 1, 2, black, 0)) && at(12, 8) < 0xFFFFFF);
    memcpy(before, px2, sizeof px2);
    check("neither with nor without it: refused 5",
          refused_shape(maldjupp_shadow_rrect(canvas, px2, W * H, inner, 1, 2, black, 2), MALDJUPP_ZERO_BYTE) &&
              refused_shape(maldjupp_shadow_rrect(canvas, px2, W * H, inner, 1, 2, black, 256), MALDJUPP_ZERO_BYTE));
    check("after 8 and before 6",
          refused_shape(maldjupp_shadow_rrect(canvas, px2, W * H - 1, inner, 1, 2, black, 2), MALDJUPP_PIXELS) &&
              refused_shape(maldjupp_shadow_rrect(canvas, px2, W * H, inner, 8193, 2, black, 2), MALDJUPP_ZERO_BYTE) &&
              refused_shape(maldjupp_shadow_rrect(canvas, px2, W * H, inner, 8193, 2, black, 1), MALDJUPP_FLOAT));
    check("refused, no pixel is altered", memcmp(px2, before, sizeof px2) == 0);
    check("another size: pixels of 0",
          took(maldjupp_resize(canvas, H, H, px2, W * H)) && is_box(maldjupp_bounds(canvas), 0, 0, 0, H, H) && at(12, 8) == 0);
}

static int is_blended(struct maldjupp_blended b, uint32_t number, uint32_t value, bool altered) {
    return b.number == number && b.value == value && b.altered == altered;
}

/* One pixel: the values of the definition, and whether they differ from the old one. */
static void blends(void) {
    const uint32_t old = 0x00123456, marked = 0xFF123456;
    check("a blend's answer has 12 bytes, altered at 8",
          sizeof(struct maldjupp_blended) == 12 && offsetof(struct maldjupp_blended, altered) == 8);
    check("ink 127 over 0 at 1: 0, and 128: 1",
          is_blended(maldjupp_blend(0, 127, 0, 0, 1), 0, 0, false) && is_blended(maldjupp_blend(0, 128, 0, 0, 1), 0, 0x010000, true));
    check("red over 0 at 128", is_blended(maldjupp_blend(0, 255, 0, 0, 128), 0, 0x800000, true));
    check("alpha 0 leaves the pixel, uppermost byte and all", is_blended(maldjupp_blend(marked, 1, 2, 3, 0), 0, marked, false));
    check("alpha 255 and above: the inks",
          is_blended(maldjupp_blend(marked, 1, 2, 3, 255), 0, 0x010203, true) &&
              is_blended(maldjupp_blend(old, 1, 2, 3, UINT32_MAX), 0, 0x010203, true));
    /* (200 * 100 + 18 * 155 + 127) / 255 = 89, (0 * 100 + 52 * 155 + 127) / 255 = 32, (86 * 100 + 86 * 155 + 127) / 255 = 86. */
    check("between them, each channel the nearest", is_blended(maldjupp_blend(old, 200, 0, 86, 100), 0, 0x592056, true));
    check("the same value is not altered", is_blended(maldjupp_blend(old, 0x12, 0x34, 0x56, 77), 0, old, false));
    check("the uppermost byte alone is", is_blended(maldjupp_blend(marked, 0x12, 0x34, 0x56, 77), 0, old, true));
    check("an ink of 256: refused 11, whatever the alpha",
          is_blended(maldjupp_blend(old, 256, 0, 0, 0), MALDJUPP_INK, 0, false) &&
              is_blended(maldjupp_blend(old, 0, 256, 0, 128), MALDJUPP_INK, 0, false) &&
              is_blended(maldjupp_blend(old, 0, 0, UINT32_MAX, 255), MALDJUPP_INK, 0, false));
}

/* A new canvas, all white. */
static int whitened(void) { return took(maldjupp_new(W, H, W, px2, W * H)) && took(maldjupp_clear(canvas, px2, W * H, hex(0xFFFFFF))); }

/* How many steps of a shape alter a pixel, and how many bytes the answers have. */
static void counts(void) {
    static uint32_t before[W * H];
    const struct maldjupp_box clip = {4, 4, 9, 9};
    const struct maldjupp_rect all = {0, 0, W, H};
    const float way[] = {2, 2.5f, 8, 2.5f, 14, 2.5f};
    const struct maldjupp_brush clear = maldjupp_solid(maldjupp_rgba(0, 0, 0, 0));
    check("an answer has 40 bytes, its counts at 24 and 32",
          sizeof(struct maldjupp_reply) == 40 && offsetof(struct maldjupp_reply, steps) == 24 && offsetof(struct maldjupp_reply, grounded) == 32);
    check("a shape's has 312, its count at 304",
          sizeof(struct maldjupp_counted) == 312 && offsetof(struct maldjupp_counted, canvas) == 8 &&
              offsetof(struct maldjupp_counted, steps) == 304);
    check("a state has 296, its pitch at 8", sizeof(struct maldjupp_canvas) == 296 && offsetof(struct maldjupp_canvas, pitch) == 8);
    check("a fill of 5 by 4: 20 steps", whitened() && fill_call(2, 3, 5, 4, copper) && counted == 20);
    check("the same again: 0", fill_call(2, 3, 5, 4, copper) && counted == 0);
    check("a part of it over: 6", fill_call(3, 4, 3, 2, brass) && counted == 6);
    check("an alpha of 0: 0", drew(maldjupp_fill_rect(canvas, px2, W * H, all, clear)) && counted == 0);
    check("under a clip: 9", took(maldjupp_push_clip_i(canvas, clip)) && fill_call(2, 3, 5, 4, 0) && counted == 9);
    check("a radius of 8,193: refused 6, and 0",
          refused_shape(maldjupp_fill_circle(canvas, px2, W * H, 5, 5, 8193, maldjupp_solid(hex(copper))), MALDJUPP_FLOAT));

    check("a pixel's uppermost byte counts: 1", whitened() && (px2[W] |= 0xFF000000) && fill_call(0, 0, 3, 3, 0xFFFFFF) && counted == 1);
    /* Each line alters 10 columns by 3 rows, of which they share 4 columns around the joint. */
    memcpy(before, px2, sizeof px2);
    check("a joint counts twice: 60 steps at 48 pixels",
          drew(maldjupp_polyline(canvas, px2, W * H, way, 6, 3, maldjupp_rgba(0, 0, 0, 128))) && counted == 60 &&
              differing(px2, before, W * H) == 48);
    check("a polyline of one point: 0", drew(maldjupp_polyline(canvas, px2, W * H, way, 2, 3, hex(copper))) && counted == 0);
}

/* A trace that grows point by point, and one that is too long. */
static void traces(void) {
    enum { POINTS = 32 };
    static uint8_t old[MOST], new[MOST], lines[MOST];
    static uint32_t px[W * H], fresh[W * H], apart[W * H], paper[W * H];
    float none = 0;
    size_t n = trace(0, old), m, grown = 0, alike = 0, same = 0;
    maldjupp_paint(old, n, W, px, W * H, &none, 0), memcpy(paper, px, sizeof px);
    for (size_t points = 1; points <= POINTS; points++) {
        m = trace(points, new), grown += maldjupp_patch(old, n, new, m, W, px, W * H, &none, 0).number == MALDJUPP_ACCEPTED;
        uint64_t steps = maldjupp_paint(new, m, W, fresh, W * H, &none, 0).steps;
        memcpy(old, new, n = m), m = trace_lines(points, lines), same += maldjupp_paint(lines, m, W, apart, W * H, &none, 0).steps == steps;
        alike += memcmp(px, fresh, sizeof px) == 0 && memcmp(px, apart, sizeof px) == 0;
    }
    check("a trace grows: it is as painted fresh, and as lines", grown == POINTS && alike == POINTS);
    check("its steps are those of the lines", same == POINTS);
    m = trace(2, new);
    struct maldjupp_reply r = maldjupp_patch(old, n, new, m, W, px, W * H, &none, 0);
    /* All of the box, 22 by 13, is on the paper. One line is left, which takes one step at a pixel. */
    check("back to 2: the box around the whole of it", is_altered(r, 1, 1, 23, 14, 286 + differing(px, paper, W * H), 286));
    memcpy(fresh, px, sizeof px), memcpy(old, new, n = m), m = trace(65, new);
    check("65 points: refused 13 at item 2",
          is_refused(maldjupp_patch(old, n, new, m, W, px, W * H, &none, 0), MALDJUPP_POINTS, 2) && memcmp(px, fresh, sizeof px) == 0);
}

static int is_written(struct maldjupp_written w, uint32_t number, size_t len) { return w.number == number && w.item == 0 && w.len == len; }

/* The bytes of a clip order by its own pairs: the end of the last item. */
static size_t end_of(const uint8_t *sheet) {
    const uint8_t *pair = sheet + 8 + 4 * sheet[8];
    return sheet[8] == 0 ? 12 : (size_t)(pair[0] | pair[1] << 8) + (size_t)(pair[2] | pair[3] << 8);
}

/* Every small clip order, with a byte to spare, just enough and one too few. */
static void orders(void) {
    enum { COUNT = 1093, LONGEST = 348, ROOM = LONGEST + 1 };
    const uint32_t black[16] = {0};
    uint8_t sheet[ROOM], last[ROOM] = {0}, marks[ROOM];
    uint32_t px[16] = {0};
    float none = 0;
    size_t written = 0, another = 0, painted = 0, enough = 0, refused = 0, bytes = 0;
    for (size_t i = 0; i < ROOM; i++) marks[i] = (uint8_t)(37 * i + 11);
    for (size_t k = 0; k < COUNT; k++) {
        memcpy(sheet, marks, ROOM);
        size_t n = maldjupp_clip_order(k, sheet, ROOM).len;
        written += 12 <= n && n <= LONGEST && n == end_of(sheet) && memcmp(sheet + n, marks + n, ROOM - n) == 0;
        another += memcmp(sheet, last, ROOM) != 0;
        /* White alters a pixel once, since it covers; black ground alters those that the order before left white. */
        uint64_t before = differing(px, black, 16);
        struct maldjupp_reply r = maldjupp_paint(sheet, n, 4, px, 16, &none, 0);
        painted += is_altered(r, 0, 0, 4, 4, differing(px, black, 16), before);
        memcpy(last, sheet, ROOM), bytes += n, memcpy(sheet, marks, ROOM);
        refused += is_written(maldjupp_clip_order(k, sheet, n - 1), MALDJUPP_BUFFER, 0) && memcmp(sheet, marks, ROOM) == 0;
        enough += is_written(maldjupp_clip_order(k, sheet, n), MALDJUPP_ACCEPTED, n) && memcmp(sheet, last, ROOM) == 0;
    }
    check("1,093 clip orders are written, 189,556 bytes", written == COUNT && bytes == 189556);
    check("each is another than the one before", another == COUNT);
    check("each is painted without scratch, and counted", painted == COUNT);
    check("just enough room is enough", enough == COUNT);
    check("a byte less: refused 19, the buffer unaltered", refused == COUNT);
    memcpy(sheet, marks, ROOM);
    check("number 1,093: refused 23", is_written(maldjupp_clip_order(COUNT, sheet, ROOM), MALDJUPP_ORDER, 0));
    check("also where there is no room: 23 before 19", is_written(maldjupp_clip_order(SIZE_MAX, sheet, 0), MALDJUPP_ORDER, 0));
    check("refused, the buffer is not altered", memcmp(sheet, marks, ROOM) == 0);
    check("number 6 is push and fill: four pixels",
          is_written(maldjupp_clip_order(6, sheet, ROOM), MALDJUPP_ACCEPTED, 92) && maldjupp_paint(sheet, 92, 4, px, 16, &none, 0).number == 0 &&
              px[0] == 0 && px[5] == 0xFFFFFF && px[6] == 0xFFFFFF && px[9] == 0xFFFFFF && px[10] == 0xFFFFFF && px[2] == 0 && px[15] == 0);
}

/* The ticket, painted and patched, and as many shapes at once as a patch may alter. */
static void patches(float *scratch, size_t words) {
    static uint8_t old[MOST], new[MOST];
    static uint32_t px[W * H], fresh[W * H], before[W * H];
    size_t n = ticket(copper, 9, old), m = ticket(copper, 12, new);
    check("painted: 0, the whole canvas", is_altered(maldjupp_paint(old, n, W, px, W * H, scratch, words), 0, 0, W, H, 308 + 25 + 18 + 10, W * H));
    px[0] |= 0xFF000000;
    check("once more: the same steps, paper and a byte grounded",
          is_altered(maldjupp_paint(old, n, W, px, W * H, scratch, words), 0, 0, W, H, 308 + 25 + 18 + 10, 308 + 1));
    check("ground, paper, grade and bar", px[0] == 0xDEDBD2 && px[2 * W + 2] == 0xFDFCF8 && px[5 * W + 5] == copper && px[11 * W + 11] == 0x207A4E);
    check("the bar ends where it should", px[11 * W + 12] == 0xFDFCF8);

    check("bar patched: its box", is_altered(maldjupp_patch(old, n, new, m, W, px, W * H, scratch, words), 3, 11, 15, 13, 24 + 24, 24));
    maldjupp_paint(new, m, W, fresh, W * H, scratch, words);
    check("the pixels are those of a fresh painting", memcmp(px, fresh, sizeof px) == 0 && px[11 * W + 14] == 0x207A4E);

    memcpy(old, new, n = m), m = ticket(brass, 12, new);
    check("grade patched: its box", is_altered(maldjupp_patch(old, n, new, m, W, px, W * H, scratch, words), 3, 3, 8, 8, 25 + 25, 25));
    check("the grade is brass", px[5 * W + 5] == brass);

    memcpy(old, new, n = m), m = ticket(copper, 8, new);
    check("grade and bar at once: the box around both",
          is_altered(maldjupp_patch(old, n, new, m, W, px, W * H, scratch, words), 3, 3, 15, 13, 120 + 25 + 16, 120));
    maldjupp_paint(new, m, W, fresh, W * H, scratch, words);
    check("the pixels are those of a fresh painting", memcmp(px, fresh, sizeof px) == 0 && px[5 * W + 5] == copper);

    memcpy(old, new, n = m), m = ticket(brass, 12, new);
    check("and back", is_altered(maldjupp_patch(old, n, new, m, W, px, W * H, scratch, words), 3, 3, 15, 13, 120 + 25 + 24, 120));
    check("nothing differs: an empty box", is_altered(maldjupp_patch(new, m, new, m, W, px, W * H, scratch, words), 0, 0, 0, 0, 0, 0));

    n = pile(33, 4, old), m = pile(33, 6, new), maldjupp_paint(old, n, W, px, W * H, scratch, words), memcpy(before, px, sizeof px);
    check("33 shapes at once: refused 14", is_refused(maldjupp_patch(old, n, new, m, W, px, W * H, scratch, words), MALDJUPP_MANY, 0));
    check("also where pixels are too few: 14 before 8", maldjupp_patch(old, n, new, m, W, px, 3, scratch, words).number == MALDJUPP_MANY);
    check("refused, nothing is altered", memcmp(px, before, sizeof px) == 0);
    n = pile(32, 4, old), m = pile(32, 6, new);
    /* The first of the 32 alters what the others leave as it is. */
    check("32 at once: the box around all", is_altered(maldjupp_patch(old, n, new, m, W, px, W * H, scratch, words), 2, 2, 8, 5, 18, 12));
}

/* Patches of the ticket that are refused, and the ticket call by call. */
static void refusals(float *scratch, size_t words) {
    static uint8_t old[MOST], new[MOST];
    static uint32_t px[W * H], fresh[W * H], before[W * H];
    size_t n = ticket(brass, 12, old), m = ticket(brass, 12, new);
    maldjupp_paint(old, n, W, px, W * H, scratch, words), memcpy(before, px, sizeof px), new[4] ^= 1;
    check("another ground: refused 10", is_refused(maldjupp_patch(old, n, new, m, W, px, W * H, scratch, words), MALDJUPP_DIFFERENCE, 0));
    m = ticket(brass, 8193, new);
    check("a bar of 8,193: refused 6 at item 3", is_refused(maldjupp_patch(old, n, new, m, W, px, W * H, scratch, words), MALDJUPP_FLOAT, 3));
    m = ticket(brass, 8, new);
    check("11 bytes: refused 1", is_refused(maldjupp_patch(old, n, new, 11, W, px, W * H, scratch, words), MALDJUPP_SHEET_LENGTH, 0));
    check("a pixel too few: refused 8", is_refused(maldjupp_patch(old, n, new, m, W, px, W * H - 1, scratch, words), MALDJUPP_PIXELS, 0));
    check("a word of scratch too few: refused 9",
          is_refused(maldjupp_patch(old, n, new, m, W, px, W * H, scratch, words - 1), MALDJUPP_SCRATCH, 0));
    check("refused, nothing is altered", memcmp(px, before, sizeof px) == 0);
    check("the words measured are enough",
          is_altered(maldjupp_patch(old, n, new, m, W, px, W * H, scratch, words), 3, 11, 15, 13, 24 + 16, 24));

    maldjupp_paint(new, m, W, fresh, W * H, scratch, words);
    check("the ticket is drawn call by call", ticket_calls(brass, 8, scratch, words));
    check("its pixels are those of the sheet", memcmp(px2, fresh, sizeof fresh) == 0);
    check("a word of scratch too few: refused 9", !ticket_calls(brass, 8, scratch, words - 1) && memcmp(px2, fresh, sizeof fresh) != 0);
}

/* A frame whose rows are 7 words longer than the canvas, and one as wide as can be. */
enum { PITCH = W + 7, FRAME = PITCH * H, WIDEST = 4096 };
static uint32_t frame[FRAME], widest[WIDEST * H];

/* What a word of a frame holds before anything is painted there: each another. */
static uint32_t mark(size_t i) { return (uint32_t)i * 2654435761u ^ 0xA5000000; }

static void lay(uint32_t *words, size_t count) {
    for (size_t i = 0; i < count; i++) words[i] = mark(i);
}

/* Whether the words of a frame past a width are as they were laid. */
static int kept(const uint32_t *words, size_t pitch, size_t width) {
    size_t same = 0;
    for (size_t i = 0; i < pitch * H; i++) same += i % pitch >= width && words[i] == mark(i);
    return same == (pitch - width) * H;
}

/* Whether the canvas within a frame has these pixels. */
static int shows(const uint32_t *words, size_t pitch, const uint32_t *px) {
    uint64_t count = 0;
    for (size_t y = 0; y < H; y++) count += differing(words + y * pitch, px + y * W, W);
    return count == 0;
}

/* Whether the first words of each row, up to a width, are a value. */
static int is_all(const uint32_t *words, size_t pitch, size_t width, uint32_t value) {
    size_t same = 0;
    for (size_t i = 0; i < pitch * H; i++) same += i % pitch < width && words[i] == value;
    return same == width * H;
}

/* The ticket painted and patched within a frame. */
static void frames(float *scratch, size_t words) {
    static uint8_t old[MOST], new[MOST];
    static uint32_t px[W * H];
    size_t n = ticket(copper, 9, old), m = ticket(brass, 12, new);
    lay(frame, FRAME), maldjupp_paint(old, n, W, px, W * H, scratch, words);
    check("painted within a frame: the same answer",
          is_altered(maldjupp_paint(old, n, PITCH, frame, FRAME, scratch, words), 0, 0, W, H, 308 + 25 + 18 + 10, W * H));
    check("the same pixels, the words beside them kept", shows(frame, PITCH, px) && kept(frame, PITCH, W));
    check("a patch within it: the same box and counts",
          is_altered(maldjupp_patch(old, n, new, m, PITCH, frame, FRAME, scratch, words), 3, 3, 15, 13, 120 + 25 + 24, 120));
    maldjupp_paint(new, m, W, px, W * H, scratch, words);
    check("the same pixels, the words beside them kept", shows(frame, PITCH, px) && kept(frame, PITCH, W));
    lay(widest, WIDEST * H);
    check("painted and patched in rows of 4,096",
          maldjupp_paint(old, n, WIDEST, widest, WIDEST * H, scratch, words).number == MALDJUPP_ACCEPTED &&
              maldjupp_patch(old, n, new, m, WIDEST, widest, WIDEST * H, scratch, words).number == MALDJUPP_ACCEPTED &&
              shows(widest, WIDEST, px) && kept(widest, WIDEST, W));
}

/* Whether the ticket is refused by a number, painted and patched, with a pitch and so many pixels. */
static int both_refused(size_t pitch, size_t pixels, float *scratch, size_t words, uint32_t number) {
    static uint8_t old[MOST], new[MOST];
    size_t n = ticket(brass, 12, old), m = ticket(copper, 9, new);
    return is_refused(maldjupp_paint(new, m, pitch, frame, pixels, scratch, words), number, 0) &&
           is_refused(maldjupp_patch(old, n, new, m, pitch, frame, pixels, scratch, words), number, 0);
}

/* Pitches that a sheet is refused by, and the place of 15 among the others. */
static void pitches(float *scratch, size_t words) {
    static uint8_t old[MOST], new[MOST];
    static uint32_t before[FRAME];
    memcpy(before, frame, sizeof frame);
    check("a pitch below the width: refused 15",
          both_refused(W - 1, (W - 1) * H, scratch, words, MALDJUPP_PITCH) && both_refused(0, 0, scratch, words, MALDJUPP_PITCH));
    check("a pitch of 4,097 or more: refused 15",
          both_refused(4097, FRAME, scratch, words, MALDJUPP_PITCH) && both_refused(SIZE_MAX, FRAME, scratch, words, MALDJUPP_PITCH));
    check("15 before 8 and 9", both_refused(W - 1, 3, scratch, words - 1, MALDJUPP_PITCH));
    check("the last row cut short: refused 8", both_refused(PITCH, PITCH * (H - 1) + W, scratch, words, MALDJUPP_PIXELS));
    check("another pitch with the same words: refused 8",
          both_refused(PITCH + 1, FRAME, scratch, words, MALDJUPP_PIXELS) && both_refused(W, FRAME, scratch, words, MALDJUPP_PIXELS));
    size_t n = pile(33, 4, old), m = pile(33, 6, new);
    check("what the sheets are refused for comes before 15",
          maldjupp_paint(old, 11, 0, frame, FRAME, scratch, words).number == MALDJUPP_SHEET_LENGTH &&
              maldjupp_patch(old, n, new, m, 0, frame, FRAME, scratch, words).number == MALDJUPP_MANY);
    check("refused, nothing is altered", memcmp(frame, before, sizeof frame) == 0);
}

/* The steps of several shapes. */
static uint64_t summed;

static int added(struct maldjupp_counted c) {
    summed += c.steps;
    return drew(c) && counted > 0;
}

/* Shapes that reach over every edge, on a new canvas of a pitch. */
static int over_the_edges(uint32_t *px, size_t pitch) {
    static float scratch[99];
    const struct maldjupp_rect band = {-4, 5.5f, 99, 4};
    const struct maldjupp_color ink = maldjupp_rgba(36, 66, 104, 128);
    const float way[] = {2, -3, 40, 5, 8, 24}, corner[] = {20, 11, 26, 11, 20, 17};
    size_t n = pitch * H;
    summed = 0;
    return took(maldjupp_new(W, H, pitch, px, n)) && canvas.pitch == pitch &&
           added(maldjupp_fill_circle(canvas, px, n, 21, 8, 7, maldjupp_vgrad(0, H, hex(copper), hex(brass)))) &&
           added(maldjupp_shadow_rrect(canvas, px, n, band, 1, 3, ink, 0)) &&
           added(maldjupp_stroke_rrect(canvas, px, n, band, 2, 2, ink)) &&
           added(maldjupp_polyline(canvas, px, n, way, 6, 3, ink)) &&
           added(maldjupp_fill_poly(canvas, px, n, corner, 6, maldjupp_solid(ink), scratch, 99));
}

/* A canvas within a frame. */
static void framed(void) {
    lay(frame, FRAME);
    check("shapes over every edge", over_the_edges(px2, W));
    uint64_t own = summed;
    check("the same within a frame", over_the_edges(frame, PITCH) && summed == own && shows(frame, PITCH, px2));
    check("the words beside it are kept", kept(frame, PITCH, W));
    check("a pixel is read by the pitch",
          maldjupp_get(canvas, frame, FRAME, 20, 9).value == px2[9 * W + 20] && maldjupp_get(canvas, frame, FRAME, 99, 99).value == px2[H * W - 1]);
    check("the last row cut short: refused 8",
          refused(maldjupp_clear(canvas, frame, PITCH * (H - 1) + W, hex(copper)), MALDJUPP_PIXELS) && shows(frame, PITCH, px2));
    check("cleared: the words beside are kept",
          took(maldjupp_clear(canvas, frame, FRAME, hex(copper))) && is_all(frame, PITCH, W, copper) && kept(frame, PITCH, W));
    check("the same size: nothing is altered", took(maldjupp_resize(canvas, W, H, frame, FRAME)) && is_all(frame, PITCH, W, copper));
    check("wider than the pitch: refused 15", refused(maldjupp_resize(canvas, PITCH + 1, H, frame, FRAME), MALDJUPP_PITCH));
    check("narrower: the pitch stays, zeros in its columns alone",
          took(maldjupp_resize(canvas, W - 4, H, frame, FRAME)) && canvas.w == W - 4 && canvas.pitch == PITCH && is_all(frame, PITCH, W - 4, 0) &&
              frame[W - 4] == copper && frame[FRAME - PITCH + W - 1] == copper && kept(frame, PITCH, W));
    check("as wide as the pitch: zeros in all of it",
          took(maldjupp_resize(canvas, PITCH, H, frame, FRAME)) && canvas.pitch == PITCH && is_all(frame, PITCH, PITCH, 0));
}

/* Whether every call refuses the canvas by a number. */
static int every_call_refuses(uint32_t number) {
    const struct maldjupp_rect rect = {1, 1, 4, 4};
    const struct maldjupp_box none = {0, 0, 0, 0};
    return is_box(maldjupp_bounds(canvas), number, 0, 0, 0, 0) && is_box(maldjupp_clip(canvas), number, 0, 0, 0, 0) &&
           refused(maldjupp_push_clip(canvas, rect), number) && refused(maldjupp_push_clip_i(canvas, none), number) &&
           refused(maldjupp_pop_clip(canvas), number) && refused(maldjupp_resize(canvas, 5, H, frame, FRAME), number) &&
           refused(maldjupp_clear(canvas, frame, FRAME, hex(copper)), number) && maldjupp_get(canvas, frame, FRAME, 0, 0).number == number &&
           refused_shape(maldjupp_fill_rect(canvas, frame, FRAME, rect, maldjupp_solid(hex(copper))), number);
}

/* Pitches that a canvas is refused by. */
static void bad_pitches(void) {
    const struct maldjupp_canvas zeros = {.w = 0};
    lay(frame, FRAME), canvas = zeros;
    check("new, a pitch below the width: refused 15, zeros", refused(maldjupp_new(W, H, W - 1, frame, FRAME), MALDJUPP_PITCH));
    check("new, a pitch of 4,097: refused 15, zeros", refused(maldjupp_new(W, H, 4097, frame, FRAME), MALDJUPP_PITCH));
    check("new, a width raised to 1: a pitch of 0 is below it", refused(maldjupp_new(-3, H, 0, frame, 0), MALDJUPP_PITCH));
    check("new, a side over 2,048: 2 before 15", refused(maldjupp_new(W, 2049, 0, frame, FRAME), MALDJUPP_HEADER));
    check("new, the last row cut short: refused 8, zeros", refused(maldjupp_new(W, H, PITCH, frame, FRAME - 7), MALDJUPP_PIXELS));
    check("refused, nothing is altered", kept(frame, PITCH, 0));
    struct maldjupp_canvas sound = maldjupp_new(W, H, PITCH, frame, FRAME).canvas;
    canvas = sound, canvas.pitch = W - 1;
    check("a state's pitch below its width: every call refuses 15", every_call_refuses(MALDJUPP_PITCH));
    canvas.pitch = 4097;
    check("a state's pitch of 4,097: every call refuses 15", every_call_refuses(MALDJUPP_PITCH));
    canvas.depth = 17;
    check("12 before 15", every_call_refuses(MALDJUPP_STATE));
    canvas = sound;
    check("refused, nothing is altered", is_all(frame, PITCH, W, 0) && kept(frame, PITCH, W));
}

/* A band across all columns, under three of them; below it a bar without a clip. */
static size_t banded(uint32_t band, uint32_t bar, uint8_t out[MOST]) {
    struct sheet s = {.length = 0};
    push(&s, 6, 0, 3, H), fill(&s, 0, 4, W, 2, band), pop(&s), fill(&s, 2, 10, 20, 3, bar);
    return bytes_of(&s, W, H, 0xDEDBD2, out);
}

/* Bands under two clips, under the outer one after a pop, and under none after another. */
static size_t nested(uint32_t inner, uint32_t outer, uint32_t none, uint8_t out[MOST]) {
    struct sheet s = {.length = 0};
    push(&s, 4, 0, 8, H), push(&s, 8, 2, 12, 7), fill(&s, 0, 0, W, 11, inner);
    pop(&s), fill(&s, 0, 12, W, 2, outer);
    pop(&s), fill(&s, 0, 14, W, 2, none);
    return bytes_of(&s, W, H, 0xDEDBD2, out);
}

/* Paper; a square under six columns at the left; a triangle under those and six others, which share no pixel. */
static size_t hiding(uint32_t paper, float square, uint32_t rgb, uint8_t out[MOST]) {
    struct sheet s = {.length = 0};
    fill(&s, 1, 1, 22, 14, paper);
    push(&s, 0, 0, 6, H), fill(&s, square, 4, 6, 6, rgb), push(&s, 12, 0, 6, H), triangle(&s, 2, 3, 4, rgb);
    return bytes_of(&s, W, H, 0xDEDBD2, out);
}

/* A polyline down the left side and along the foot to a column, under a clip that shows neither of its lines. */
static size_t cornered(float last, uint8_t out[MOST]) {
    struct sheet s = {.length = 0};
    push(&s, 8, 4, 6, 6), word(&s, 8 | 3 << 16), pen(&s);
    number(&s, 2), number(&s, 2), number(&s, 2), number(&s, 13), number(&s, last), number(&s, 13), end(&s);
    return bytes_of(&s, W, H, 0xDEDBD2, out);
}

/* The same, as lines. */
static size_t cornered_lines(float last, uint8_t out[MOST]) {
    struct sheet s = {.length = 0};
    push(&s, 8, 4, 6, 6), line(&s, 2, 2, 2, 13), line(&s, 2, 13, last, 13);
    return bytes_of(&s, W, H, 0xDEDBD2, out);
}

/* Shapes in several places, under one, two and no clips; with another number most are elsewhere, and some hidden. */
static size_t wandering(size_t k, uint8_t out[MOST]) {
    struct sheet s = {.length = 0};
    float x = (float)(k * 7 % 31) - 4, y = (float)(k * 5 % 19) - 2;
    fill(&s, 1, 1, 22, 14, k % 6 == 0 ? brass : 0xFDFCF8);
    push(&s, 3, 0, 4, H), fill(&s, x, y, 9, 3, copper), push(&s, 5, 6, 9, 9), fill(&s, y, x, 8, 8, brass);
    pop(&s), fill(&s, 0, y, W, 1, 0x3A6292), pop(&s), push(&s, 15, 2, 5, 12);
    word(&s, 8 | 3 << 16), pen(&s), number(&s, x), number(&s, 2), number(&s, 12), number(&s, y), number(&s, 22), number(&s, x), end(&s);
    return bytes_of(&s, W, H, 0xDEDBD2, out);
}

/* Whether two lists of pixels agree outside the box of an answer. */
static int same_outside(struct maldjupp_reply r, const uint32_t *a, const uint32_t *b) {
    uint64_t count = 0;
    for (int32_t y = 0; y < H; y++) {
        for (int32_t x = 0; x < W; x++) count += (x < r.x0 || x >= r.x1 || y < r.y0 || y >= r.y1) && a[y * W + x] != b[y * W + x];
    }
    return count == 0;
}

/* Patches of shapes under clips: the box is around their reaches, each cut by the clip at its place. */
static void columns(void) {
    static uint8_t old[MOST], new[MOST];
    static uint32_t px[W * H], fresh[W * H];
    float none = 0;
    size_t n = banded(copper, copper, old), m = banded(brass, copper, new);
    maldjupp_paint(old, n, W, px, W * H, &none, 0);
    check("a band under a column: the column's box", is_altered(maldjupp_patch(old, n, new, m, W, px, W * H, &none, 0), 6, 4, 9, 6, 6, 6));
    lay(frame, FRAME), maldjupp_paint(old, n, PITCH, frame, FRAME, &none, 0);
    check("the same within a frame", is_altered(maldjupp_patch(old, n, new, m, PITCH, frame, FRAME, &none, 0), 6, 4, 9, 6, 6, 6));
    check("the same pixels, the words beside them kept", shows(frame, PITCH, px) && kept(frame, PITCH, W));
    memcpy(old, new, n = m), m = banded(brass, brass, new);
    check("after the pop: the whole bar", is_altered(maldjupp_patch(old, n, new, m, W, px, W * H, &none, 0), 2, 10, 22, 13, 60, 60));
    memcpy(old, new, n = m), m = banded(copper, copper, new);
    check("both: the column and the bar", is_altered(maldjupp_patch(old, n, new, m, W, px, W * H, &none, 0), 2, 4, 22, 13, 66, 66));
    maldjupp_paint(new, m, W, fresh, W * H, &none, 0);
    check("the pixels are those of a fresh painting", memcmp(px, fresh, sizeof px) == 0 && px[4 * W + 8] == copper && px[4 * W + 9] == 0xDEDBD2);

    n = nested(copper, copper, copper, old), m = nested(brass, copper, copper, new), maldjupp_paint(old, n, W, px, W * H, &none, 0);
    check("under two clips: what both leave", is_altered(maldjupp_patch(old, n, new, m, W, px, W * H, &none, 0), 8, 2, 12, 9, 28, 28));
    memcpy(old, new, n = m), m = nested(brass, brass, copper, new);
    check("after a pop: what the outer one leaves", is_altered(maldjupp_patch(old, n, new, m, W, px, W * H, &none, 0), 4, 12, 12, 14, 16, 16));
    memcpy(old, new, n = m), m = nested(brass, brass, brass, new);
    check("after another: all columns", is_altered(maldjupp_patch(old, n, new, m, W, px, W * H, &none, 0), 0, 14, W, H, 48, 48));

    n = cornered(20, old), m = cornered(21, new), maldjupp_paint(old, n, W, px, W * H, &none, 0);
    check("a polyline is cut as one box", is_altered(maldjupp_patch(old, n, new, m, W, px, W * H, &none, 0), 8, 4, 14, 10, 0, 0));
    n = cornered_lines(20, old), m = cornered_lines(21, new);
    check("its lines one by one: hidden", is_altered(maldjupp_patch(old, n, new, m, W, px, W * H, &none, 0), 0, 0, 0, 0, 0, 0));
}

/* A list of patches of shapes that go in and out of their clips' view. */
static void in_and_out(void) {
    enum { PATCHES = 60 };
    static uint8_t old[MOST], new[MOST];
    static uint32_t px[W * H], fresh[W * H], before[W * H];
    float none = 0;
    size_t patched = 0, alike = 0, n = wandering(0, old), m;
    maldjupp_paint(old, n, W, px, W * H, &none, 0);
    for (size_t k = 1; k <= PATCHES; k++) {
        m = wandering(k, new), memcpy(before, px, sizeof px);
        struct maldjupp_reply r = maldjupp_patch(old, n, new, m, W, px, W * H, &none, 0);
        maldjupp_paint(new, m, W, fresh, W * H, &none, 0), patched += r.number == MALDJUPP_ACCEPTED && same_outside(r, before, px);
        memcpy(old, new, n = m), alike += memcmp(px, fresh, sizeof px) == 0;
    }
    check("a list of patches: none alters a pixel outside its box", patched == PATCHES);
    check("after each, the pixels are those of a fresh painting", alike == PATCHES);
}

/* Shapes that their clips hide: an empty box, and the patches after it. */
static void hidden(void) {
    enum { WORDS = 50 };
    static uint8_t old[MOST], new[MOST];
    static uint32_t px[W * H], fresh[W * H], before[W * H];
    static float scratch[WORDS + 1], zeros[WORDS];
    size_t n = hiding(0xFDFCF8, 10, copper, old), m = hiding(0xFDFCF8, 10, brass, new);
    maldjupp_paint(old, n, W, px, W * H, scratch, WORDS), memcpy(before, px, sizeof px);
    for (size_t i = 0; i <= WORDS; i++) scratch[i] = 7;
    check("hidden, a word of scratch too few: refused 9",
          is_refused(maldjupp_patch(old, n, new, m, W, px, W * H, scratch, WORDS - 1), MALDJUPP_SCRATCH, 0) && scratch[0] == 7);
    check("hidden: an empty box", is_altered(maldjupp_patch(old, n, new, m, W, px, W * H, scratch, WORDS), 0, 0, 0, 0, 0, 0));
    check("no pixel is altered, the words needed are left 0",
          memcmp(px, before, sizeof px) == 0 && memcmp(scratch, zeros, sizeof zeros) == 0 && scratch[WORDS] == 7);
    maldjupp_paint(new, m, W, fresh, W * H, scratch, WORDS);
    check("the pixels are those of a fresh painting", memcmp(px, fresh, sizeof px) == 0);
    memcpy(old, new, n = m), m = hiding(brass, 10, brass, new);
    check("another shape after it: its box", is_altered(maldjupp_patch(old, n, new, m, W, px, W * H, scratch, WORDS), 1, 1, 23, 15, 308, 308));
    maldjupp_paint(new, m, W, fresh, W * H, scratch, WORDS);
    check("the pixels are those of a fresh painting", memcmp(px, fresh, sizeof px) == 0);
    memcpy(old, new, n = m), m = hiding(brass, 4, copper, new);
    check("one comes into view: what is seen of it",
          is_altered(maldjupp_patch(old, n, new, m, W, px, W * H, scratch, WORDS), 4, 4, 6, 10, 12 + 12, 12) && px[4 * W + 5] == copper);
    memcpy(old, new, n = m), m = hiding(brass, 6, copper, new);
    check("and leaves it: the same box", is_altered(maldjupp_patch(old, n, new, m, W, px, W * H, scratch, WORDS), 4, 4, 6, 10, 12, 12));
    check("the pixels are those before it came", memcmp(px, fresh, sizeof px) == 0);
}

/* The panel of the steps below, which are given the canvas and the frame. */
static struct maldjupp_panel panel;

static struct maldjupp_box box(int32_t x0, int32_t y0, int32_t x1, int32_t y1) {
    struct maldjupp_box b = {x0, y0, x1, y1};
    return b;
}

/* A panel with these flags, column, row, pixels left and box; its command is 0. */
static struct maldjupp_panel panel_at(uint32_t flags, uint32_t x, uint32_t y, uint32_t left, struct maldjupp_box held) {
    struct maldjupp_panel p = {.held = held};
    const uint32_t words[] = {flags << 8, x, y, left};
    for (size_t i = 0; i < 8; i++) p.regs[i] = (uint8_t)(words[i / 2] >> 8 * (i % 2));
    return p;
}

static int is_panel(struct maldjupp_panel p) { return memcmp(&p, &panel, sizeof p) == 0; }

/* Goes on with the panel that a write returned, and says whether it was accepted. */
static int wrote(struct maldjupp_stepped s) {
    panel = s.panel;
    return s.number == MALDJUPP_ACCEPTED;
}

static struct maldjupp_stepped command(uint32_t value, struct maldjupp_box area) {
    return maldjupp_panel_command(panel, canvas, frame, FRAME, (uint8_t)value, area);
}

static int load(struct maldjupp_box area) { return wrote(command(MALDJUPP_LOAD, area)); }

static struct maldjupp_stepped flags(uint32_t value) { return maldjupp_panel_flags(panel, canvas, frame, FRAME, (uint8_t)value); }

static int acknowledge(void) { return wrote(flags(MALDJUPP_INTERRUPT)); }

/* Takes so many pixels of the held box, from its first on. Whether each is that of its column and row, and the registers at it are those of the
 * place, with these flags. */
static int takes(const uint32_t *px, uint32_t count, uint32_t bits) {
    struct maldjupp_box b = panel.held;
    uint32_t sound = 0, x0 = (uint32_t)b.x0, y0 = (uint32_t)b.y0, w = (uint32_t)b.x1 - x0;
    for (uint32_t k = 0; k < count; k++) {
        uint32_t x = x0 + k % w, y = y0 + k / w;
        int placed = is_panel(panel_at(bits, x, y, w - k % w, b));
        struct maldjupp_taken t = maldjupp_panel_take(panel, canvas, px, canvas.pitch * (size_t)canvas.h);
        sound += placed && t.number == MALDJUPP_ACCEPTED && t.value == px[y * canvas.pitch + x];
        panel = t.panel;
    }
    return sound == count;
}

static int is_finished(struct maldjupp_box held) { return is_panel(panel_at(MALDJUPP_INTERRUPT, 0, 0, 0, held)); }

/* Boxes of the frame, taken pixel by pixel. */
static void panels(void) {
    const struct maldjupp_box none = {0, 0, 0, 0}, area = {5, 2, 12, 6}, far = {9000, -7, 9000, INT32_MAX}, all = {0, 0, W, H};
    check("a panel has 24 bytes, its box at 8", sizeof panel == 24 && offsetof(struct maldjupp_panel, held) == 8);
    check("a write's answer has 28, its panel at 4",
          sizeof(struct maldjupp_stepped) == 28 && offsetof(struct maldjupp_stepped, panel) == 4);
    check("a take's has 32, its pixel at 4, its panel at 8",
          sizeof(struct maldjupp_taken) == 32 && offsetof(struct maldjupp_taken, value) == 4 && offsetof(struct maldjupp_taken, panel) == 8);
    struct maldjupp_done made = maldjupp_new(W, H, PITCH, frame, FRAME);
    canvas = maldjupp_whole(W, H, PITCH), lay(frame, FRAME), panel = maldjupp_panel_fresh();
    check("a whole state is that of a new canvas", made.number == MALDJUPP_ACCEPTED && memcmp(&made.canvas, &canvas, sizeof canvas) == 0);
    check("a fresh panel: zeros", is_panel(panel_at(0, 0, 0, 0, none)));
    check("a box is loaded: its corner and width, bit 0", load(area) && is_panel(panel_at(MALDJUPP_PIXEL_READY, 5, 2, 7, area)));
    check("taken, it is the box of the frame, row by row", takes(frame, 28, MALDJUPP_PIXEL_READY));
    check("the last take: zeros, the interrupt", is_finished(area));
    check("128 clears bit 7", acknowledge() && is_panel(panel_at(0, 0, 0, 0, area)));
    check("once more: nothing is altered", acknowledge() && is_panel(panel_at(0, 0, 0, 0, area)));
    check("an empty box far outside: held as given, finished", load(far) && is_finished(far));
    check("a load clears bit 7", load(area) && is_panel(panel_at(MALDJUPP_PIXEL_READY, 5, 2, 7, area)));
    check("128 while busy: bit 0 stays",
          takes(frame, 9, MALDJUPP_PIXEL_READY) && acknowledge() && is_panel(panel_at(MALDJUPP_PIXEL_READY, 7, 3, 5, area)));
    check("a load while busy starts anew", load(box(1, 1, 3, 3)) && takes(frame, 4, MALDJUPP_PIXEL_READY) && is_finished(box(1, 1, 3, 3)));
    check("an empty box while busy: finished", load(area) && takes(frame, 1, MALDJUPP_PIXEL_READY) && load(none) && is_finished(none));
    check("the whole canvas, pixel by pixel", load(all) && takes(frame, W * H, MALDJUPP_PIXEL_READY) && is_finished(all));
    panel = panel_at(0x81, 5, 2, 7, area);
    check("flags 0x81 stay through takes; the last leaves 128", takes(frame, 28, 0x81) && is_finished(area));
    panel = panel_at(0x81, 5, 2, 7, area);
    check("128 written to flags 0x81: 1 is left", acknowledge() && is_panel(panel_at(1, 5, 2, 7, area)));
    check("px is only read", kept(frame, PITCH, 0));
    canvas = maldjupp_whole(2048, H, WIDEST), lay(widest, WIDEST * H);
    check("columns over 255, to the last of 2,048",
          wrote(maldjupp_panel_command(panel, canvas, widest, WIDEST * H, 1, box(250, 13, 2048, H))) && takes(widest, 3 * 1798, 1) &&
              is_finished(box(250, 13, 2048, H)));
}

/* Whether a write or a take is refused by a number: the panel comes back as given, and a take hands over 0. */
static int unwritten(struct maldjupp_stepped s, uint32_t number) { return s.number == number && is_panel(s.panel); }

static int untaken(size_t pixels, uint32_t number) {
    struct maldjupp_taken t = maldjupp_panel_take(panel, canvas, frame, pixels);
    return t.number == number && t.value == 0 && is_panel(t.panel);
}

/* Whether every step on so many pixels is refused by a number, also those that are refused for themselves by 20, 21 or, with no pixel ready, 22. */
static int every_step_refuses(size_t pixels, uint32_t number) {
    const struct maldjupp_box fits = {0, 0, 1, 1}, none = {9, 9, 9, 9}, past = {0, 0, W + 1, 1};
    return unwritten(maldjupp_panel_command(panel, canvas, frame, pixels, 1, fits), number) &&
           unwritten(maldjupp_panel_command(panel, canvas, frame, pixels, 1, none), number) &&
           unwritten(maldjupp_panel_command(panel, canvas, frame, pixels, 1, past), number) &&
           unwritten(maldjupp_panel_command(panel, canvas, frame, pixels, 0, fits), number) &&
           unwritten(maldjupp_panel_flags(panel, canvas, frame, pixels, 128), number) &&
           unwritten(maldjupp_panel_flags(panel, canvas, frame, pixels, 127), number) && untaken(pixels, number);
}

/* Whether these registers are refused by 12 at every step. */
static int out_of_order(struct maldjupp_panel p) {
    panel = p;
    return every_step_refuses(FRAME, MALDJUPP_STATE);
}

/* What each step is refused for itself, with a pixel ready and with none. */
static void panel_refusals(void) {
    const struct maldjupp_box area = {5, 2, 12, 6}, none = {9, 9, 9, 9};
    const struct maldjupp_box past[] = {{-1, 0, 9, 9}, {0, -1, 9, 9}, {0, 0, W + 1, 9}, {0, 0, 9, H + 1}, {W, 0, W + 1, 1}};
    const struct maldjupp_panel given[] = {panel_at(0, 0, 0, 0, none), panel_at(1, 6, 3, 6, area), panel_at(128, 0, 0, 0, area)};
    size_t commands = 0, boxes = 0, writes = 0, untouched = 0;
    canvas = maldjupp_whole(W, H, PITCH), lay(frame, FRAME);
    for (size_t i = 0; i < 3; i++) {
        panel = given[i];
        for (uint32_t v = 0; v < 256; v++) {
            commands += unwritten(command(v, area), MALDJUPP_COMMAND) && unwritten(command(v, none), MALDJUPP_COMMAND);
            writes += unwritten(flags(v), MALDJUPP_FLAG_WRITE);
        }
        for (size_t j = 0; j < 5; j++) boxes += unwritten(command(MALDJUPP_LOAD, past[j]), MALDJUPP_COMMAND);
        untouched += untaken(FRAME, MALDJUPP_NOT_READY);
    }
    check("every command but 1: refused 20, whatever the box", commands == 3 * 255);
    check("a box past a side of the canvas: refused 20", boxes == 3 * 5);
    check("every flag write but 128: refused 21", writes == 3 * 255);
    check("a take while no pixel is ready: refused 22, and 0", untouched == 2);
}

/* Registers out of order, each sort, and registers that may be anything. */
static void panel_registers(void) {
    const struct maldjupp_box area = {5, 2, 12, 6}, odd = {9, 7, -3, 99};
    struct maldjupp_panel sound = panel_at(1, 6, 3, 6, area);
    size_t commands = 0, others = 0;
    for (uint32_t v = 1; v < 256; v++) {
        sound.regs[0] = (uint8_t)v, commands += out_of_order(sound);
        others += out_of_order(panel_at(v, 6, 3, 6, area));
    }
    check("a command byte that is not 0: refused 12", commands == 255);
    check("a flag other than bits 0 and 7: refused 12", others == 252);
    check("a pixel ready, the held box empty: refused 12", out_of_order(panel_at(1, 0, 0, 0, box(0, 0, 0, 0))) &&
                                                                out_of_order(panel_at(1, 6, 3, 6, box(5, 6, 12, 2))));
    check("the held box past a side of the canvas: refused 12",
          out_of_order(panel_at(1, 6, 3, 6, box(-1, 2, 12, 6))) && out_of_order(panel_at(1, 6, 3, 6, box(5, -1, 12, 6))) &&
              out_of_order(panel_at(1, 6, 3, W + 1 - 6, box(5, 2, W + 1, 6))) && out_of_order(panel_at(1, 6, 3, 6, box(5, 2, 12, H + 1))));
    check("the place outside the held box: refused 12",
          out_of_order(panel_at(1, 4, 3, 8, area)) && out_of_order(panel_at(1, 12, 3, 0, area)) && out_of_order(panel_at(1, 6, 1, 6, area)) &&
              out_of_order(panel_at(1, 6, 6, 6, area)));
    check("pixels left that are not the rest of the row: refused 12",
          out_of_order(panel_at(1, 6, 3, 5, area)) && out_of_order(panel_at(1, 6, 3, 7, area)) && out_of_order(panel_at(0x81, 6, 3, 0, area)));
    panel = panel_at(128, 40000, 50000, 60000, odd);
    check("none ready: the other bytes and the box may be anything", acknowledge() && is_panel(panel_at(0, 40000, 50000, 60000, odd)));
    check("and a box is loaded", load(area) && is_panel(panel_at(1, 5, 2, 7, area)));
}

/* The tests before a step's own, in their order. */
static void panel_order(void) {
    const struct maldjupp_canvas sound = maldjupp_whole(W, H, PITCH);
    const struct maldjupp_panel given[] = {maldjupp_panel_fresh(), panel_at(1, 6, 3, 6, box(5, 2, 12, 6))};
    size_t states = 0, pitched = 0, lent = 0, registers = 0;
    for (size_t i = 0; i < 2; i++) {
        panel = given[i], canvas = sound, canvas.pitch = W - 1, canvas.depth = 17;
        states += every_step_refuses(3, MALDJUPP_STATE);
        canvas.depth = 0, pitched += every_step_refuses(3, MALDJUPP_PITCH) && every_step_refuses((W - 1) * H, MALDJUPP_PITCH);
        canvas.pitch = 4097, pitched += every_step_refuses(FRAME, MALDJUPP_PITCH);
        canvas = sound, lent += every_step_refuses(FRAME - 1, MALDJUPP_PIXELS) && every_step_refuses(0, MALDJUPP_PIXELS);
        panel.regs[0] = 1, canvas.pitch = W - 1, registers += every_step_refuses(3, MALDJUPP_STATE);
    }
    check("a state that a canvas cannot be in: 12 before 15 and 8", states == 2);
    check("a pitch below the width or of 4,097: 15 before 8", pitched == 4);
    check("a word too few, or none: 8 before 20, 21 and 22", lent == 2);
    check("12 for the registers before 15 and 8", registers == 2);
    check("refused, px is as it was", kept(frame, PITCH, 0));
}

int main(void) {
    static uint8_t sheet[MOST];
    struct maldjupp_room room = maldjupp_measure(sheet, ticket(copper, 9, sheet));
    float *scratch = calloc(room.words + 1, sizeof *scratch);
    if (!scratch) return fprintf(stderr, "there is no memory\n"), 1;
    check("measured: 50 words, no clip, 387 pixels", is_room(room, MALDJUPP_ACCEPTED, 0, 50, 0, 308 + 25 + 18 + 36));
    patches(scratch, room.words);
    refusals(scratch, room.words);
    frames(scratch, room.words);
    pitches(scratch, room.words);
    free(scratch);
    rooms();
    calls();
    shapes();
    blends();
    counts();
    framed();
    bad_pitches();
    columns();
    in_and_out();
    hidden();
    traces();
    orders();
    panels();
    panel_refusals();
    panel_registers();
    panel_order();

    printf("example: %s\n", failed ? "FAILED" : "every answer is as it should be");
    return failed != 0;
}
