/* Maldjupp: a sheet of shapes is painted and patched, a canvas drawn on call by call, and a box of pixels handed over through a panel's registers,
 * by the proved static library libmaldjupp.a, which `tools/library maldjupp` writes.
 *
 * Sheet, buffer, pixels, points and scratch are lent for the call. Only what is lent is touched, whatever the bytes and numbers are, and nothing
 * is kept. Lent pieces must not overlap. A pointer whose length is 0 must not be null: give the address of anything.
 *
 * Pixels stand row by row, each 0x00RRGGBB, within a frame whose rows are `pitch` words long, from the canvas's width to 4,096: the pixel in column
 * x and row y is px[y * pitch + x]. `pixels`, the words lent, must be pitch times height, so the last row is whole too. The words of a row past
 * the width are never altered by any call. Where px is the canvas alone, the pitch is its width. In a larger frame px points at the canvas's first
 * pixel; where that is not in the frame's first column, the words lent end as far into the row after the canvas's last, which must be there. */
#ifndef MALDJUPP_H
#define MALDJUPP_H

#include <stdbool.h>
#include <stddef.h>
#include <stdint.h>

#ifdef __cplusplus
extern "C" {
#endif

/* Why a call is refused. */
enum maldjupp_number {
    MALDJUPP_ACCEPTED = 0,
    MALDJUPP_SHEET_LENGTH = 1, /* the sheet is under 12 or over 60,000 bytes */
    MALDJUPP_HEADER = 2,       /* a side outside 1 to 2,048, over 1,024 items, or a zero byte of the header filled */
    MALDJUPP_PAIRS = 3,        /* the pairs of offset and length do not run on to the end of the sheet */
    MALDJUPP_KIND = 4,         /* an item's kind is not 1 to 8, or its length is not its kind's */
    MALDJUPP_ZERO_BYTE = 5,    /* a zero byte of an item filled, a paint or brush kind over 3 or skip_inside over 1 */
    MALDJUPP_FLOAT = 6,        /* a float is not finite or past 8,192 either way */
    MALDJUPP_CLIPS = 7,        /* a clip is pushed while 16 are saved */
    MALDJUPP_PIXELS = 8,       /* the pixels lent are not pitch times height */
    MALDJUPP_SCRATCH = 9,      /* the scratch lent is less than is needed */
    MALDJUPP_DIFFERENCE = 10,  /* the sheets differ in size, ground or item count, or in a push or pop of a clip */
    MALDJUPP_INK = 11,         /* an ink of maldjupp_blend is over 255 */
    MALDJUPP_STATE = 12,       /* a state that a canvas cannot be in, or panel registers out of order */
    MALDJUPP_POINTS = 13,      /* a polygon or polyline of over 64 points, or in a canvas call an odd count of coordinates */
    MALDJUPP_MANY = 14,        /* the sheets differ in more than 32 shapes */
    MALDJUPP_PITCH = 15,       /* a pitch outside the width to 4,096, also one in a state, or one below the width that maldjupp_resize wants */
    MALDJUPP_BUFFER = 19,      /* the sheet does not fit the buffer */
    MALDJUPP_COMMAND = 20,     /* a command other than 1, or a box neither empty nor inside the canvas */
    MALDJUPP_FLAG_WRITE = 21,  /* a flag write other than 128 */
    MALDJUPP_NOT_READY = 22,   /* a take while no pixel is ready */
    MALDJUPP_ORDER = 23        /* there is no clip order of this number: it is 1,093 or more */
};

/* An answer. The box is columns x0 up to but without x1, rows y0 up to but without y1. Refused, box and counts are zeros.
 *
 * A step is one shape at one pixel; a polyline takes one step a line at each pixel, each line on what the one before left, so that a joint may
 * count twice. A step alters the pixel where its value, all 32 bits, differs afterwards. `steps` is how many of the sheet's did so within the
 * box, its shapes being drawn on its own ground: of a painting it hangs on the sheet alone, whatever the pixels held. `grounded` is how many
 * pixels of the box the filling with the ground altered: it hangs on what they held. */
struct maldjupp_reply {
    uint32_t number; /* 0 where accepted, else one of the numbers above */
    uint32_t item;   /* the item, counted from 1, beside 4, 5, 6, 7 and 13; else 0 */
    int32_t x0, y0, x1, y1;
    uint64_t steps;
    uint64_t grounded;
};

/* A sheet, little-endian: bytes 0-1 width, 2-3 height, 4-6 ground R G B, 7 zero, 8-9 count of items, 10-11 zero; then for each item its offset
 * and length, two bytes each; then the items, end to end, in the order in which they are drawn. An item is its kind, three bytes that are zero
 * unless named, and:
 *
 *     1 push clip   x y w h                                                      20 bytes
 *     2 pop clip    nothing                                                      4
 *     3 fill        x y w h r, paint                                             52
 *     4 stroke      x y w h r width, colour                                      32
 *     5 line        ax ay bx by width, colour                                    28
 *     6 polygon     paint, m points x y; bytes 2-3 are m                         32 + 8m
 *     7 shadow      x y w h r blur, colour; byte 1 is skip_inside, 0 or 1        32
 *     8 polyline    width, colour, m points x y; bytes 2-3 are m                 12 + 8m
 *
 * Kinds 3 to 8 are shapes. Numbers are floats of four bytes, a colour is R G B A. A paint is its kind (that of a brush, below), three zeros, c0, c1
 * and four floats, with zero bytes for what its kind does not use. There are at most 64 points. A polyline is drawn as by maldjupp_polyline: a
 * joint is blended by both of its lines, so that with an alpha under 255 it shows. Among the shapes that differ in a patch it is one.
 *
 * A shape's reach is its box before any clip. That of a fill or a stroke is its rectangle, of a shadow the rectangle with the blur added on
 * every side, of a line the box around its ends with half the width and 1 added on every side, each rounded outward to whole pixels; of a
 * polygon the box around its points, rounded outward, with a pixel more on every side; of a polyline the smallest box around those of its
 * lines. It is empty where such a box has no pixel, as that of a line may by a negative width; and for a fill or stroke whose rectangle has a
 * width or height of 0 or less, a stroke or shadow of alpha 0, a shadow whose blur is 0 or less, and a polygon of under three points or with
 * over 4,000,000 pixels in its box.
 *
 * The clip in force at an item is the whole canvas at first, then what the pushes and pops before the item make of it. The box and the ceiling of
 * a patch take each reach as cut by it (maldjupp_patch). */

/* What painting a sheet takes. Refused, the last three are 0. */
struct maldjupp_room {
    uint32_t number; /* 0 where accepted, else as painting gives it: 1 to 7 or 13 */
    uint32_t item;   /* as in an answer */
    size_t words;    /* scratch words: the least with which painting is not refused by 9 */
    size_t saved;    /* the most clips saved at once, 0 to 16 */
    uint64_t pixels; /* a figure for the work: the pixels in a shape's reach and in its clip, summed over the shapes; at most 2^32 */
};

/* Tells what painting a sheet takes, without pixels or scratch. Patching to this sheet needs the same words. Polygons alone need any. */
struct maldjupp_room maldjupp_measure(const uint8_t *sheet, size_t bytes);

/* Paints a sheet: every pixel the ground, then its items in their order. `pixels` must be pitch times height; maldjupp_measure tells how
 * many words of scratch are needed. Accepted, the box is the whole canvas. Refused, no pixel and no scratch word is altered. What the sheet is
 * refused for comes first; then 15, 8 and 9, in this order. */
struct maldjupp_reply maldjupp_paint(const uint8_t *sheet, size_t bytes, size_t pitch, uint32_t *px, size_t pixels, float *scratch, size_t words);

/* Patches pixels that show the old sheet to the new one. The two may differ in up to 32 shapes. Scratch is what the new sheet
 * needs; maldjupp_measure tells how many words. Accepted, the box is the smallest around the reaches of these shapes, old and new, each cut by
 * the clip in force at its item, and no pixel outside it is altered; the pixels are those that painting the new sheet gives, and the new sheet
 * is the old one of the next patch. Refused, nothing is altered, and the old sheet stays the old one. What a sheet is refused for comes first,
 * the old one before the new one; then 10, 14, 15, 8 and 9, in this order.
 *
 * A polyline's reach is one box, and is cut as one. A reach of which its clip leaves no pixel adds nothing to the box: where that is so of all,
 * the box is four zeros, as where nothing differs, and no pixel is altered.
 *
 * Pitch and `pixels` are those of the painting. Another pitch with the same words lent is refused: by 15 where it is outside the width to 4,096,
 * else by 8, since it times the height is another number.
 *
 * A ceiling to plan with, proved of every patch: `steps` is at most the area of the box times the number of shapes in the new sheet whose reach,
 * cut by the clip in force at the shape, shares a pixel with the box, a polyline standing once for each of its lines whose reach, cut so, does;
 * `grounded` is at most the area, and an empty box has 0 for both. */
struct maldjupp_reply maldjupp_patch(const uint8_t *old_sheet, size_t old_bytes, const uint8_t *new_sheet, size_t new_bytes,
                                     size_t pitch, uint32_t *px, size_t pixels, float *scratch, size_t words);

/* What a call that writes a sheet returns. */
struct maldjupp_written {
    uint32_t number; /* 0 where accepted, else one of the numbers above */
    uint32_t item;   /* always 0 beside a clip order */
    size_t len;      /* the bytes written; 0 where refused */
};

/* Writes the small clip order of a number, from 0, into a buffer of `room` bytes. The clip orders are all sheets of 0 to 6 items on a black
 * canvas of 4 by 4, each item a push of the clip (1, 1, 2, 2), a pop, or an opaque white fill of (0, 0, 3, 3) with r 0; those of fewer items
 * come first, and among equals a push stands before a pop before a fill, the first item weighing most. There are 1,093, of 12 to 348 bytes,
 * and each is accepted by maldjupp_paint with 16 pixels and no scratch. Refused, by 23 for a number of 1,093 or more and then by 19 where the
 * sheet does not fit, the buffer is not altered; accepted, its bytes past `len` are not. */
struct maldjupp_written maldjupp_clip_order(size_t number, uint8_t *buf, size_t room);

/* What maldjupp_blend returns. Refused, the value is 0 and altered false. */
struct maldjupp_blended {
    uint32_t number, value;
    bool altered; /* whether the value, all 32 bits, differs from the old one */
};

/* Blends three inks of 0 to 255 over an old pixel, source over. An alpha of 0 leaves the old pixel with its uppermost byte; one of 255 or more
 * gives the inks themselves; between them each channel is (ink * a + old * (255 - a) + 127) / 255, cut down, which is nearest to the exact mix, and
 * the uppermost byte is 0. Refused by 11 for an ink over 255, whatever the alpha. */
struct maldjupp_blended maldjupp_blend(uint32_t old, uint32_t r, uint32_t g, uint32_t b, uint32_t a);

/* ---- The canvas, call by call
 *
 * The state of a canvas is a struct, which each call takes and returns by value, beside a number. Refused, the state that was given comes
 * back and no pixel and no scratch word is altered, so that a caller may always go on with the returned state. A call that draws a shape also
 * returns how many of its steps altered a pixel:
 *
 *     struct maldjupp_canvas c = maldjupp_new(W, H, W, px, W * H).canvas;
 *     struct maldjupp_counted d = maldjupp_fill_circle(c, px, W * H, 30, 40, 16, maldjupp_solid(maldjupp_rgb(184, 115, 51)));
 *     if (d.number != MALDJUPP_ACCEPTED) ..
 *     c = d.canvas;
 *     printf("%llu steps\n", (unsigned long long)d.steps);
 *
 * `pixels` must be the state's pitch times its height. Every float is finite and -8,192 to 8,192. Points are coordinates x y x y, of at most 64
 * points, and `count` is the count of coordinates. The tests stand in the order 12, 2, 15, 8, 13, 5, 6, 7, 9. Every call that takes a state tests
 * 12 and 15, also one without pixels. */

struct maldjupp_pt {
    float x, y;
};

struct maldjupp_rect {
    float x, y, w, h;
};

/* Columns x0 up to but without x1, rows y0 up to but without y1. */
struct maldjupp_box {
    int32_t x0, y0, x1, y1;
};

/* Alpha 0 paints nothing, 255 covers. */
struct maldjupp_color {
    uint8_t r, g, b, a;
};

/* What a fill or a polygon is painted with, as in a sheet. Kind 0: c0 alone. Kind 1: from c0 in row v0 to c1 in row v1. Kind 2: from c0 at
 * (v0, v1) to c1 at (v2, v3). Kind 3: from c0 at (v0, v1) to c1 at the distance v2. What a kind does not use is not read. */
struct maldjupp_brush {
    uint32_t kind;
    struct maldjupp_color c0, c1;
    float v0, v1, v2, v3;
};

/* Sides of 1 to 2,048, the pitch, the clip, and the saved clips, of which `depth` are in use and the others four zeros. Every clip is empty or
 * inside the canvas. Any other state is refused by 12, and then one whose pitch is outside w to 4,096 by 15. */
struct maldjupp_canvas {
    int32_t w, h;
    size_t pitch;
    struct maldjupp_box clip, saved[16];
    size_t depth;
};

/* What a call returns: a number, and the state, the state and a count, a box or a pixel. Count, box and pixel are zeros beside a refusal. */
struct maldjupp_done {
    uint32_t number;
    struct maldjupp_canvas canvas;
};

/* `steps` is how many of the shape's steps altered a pixel, as in an answer: how many pixels it altered, of a polyline summed over its lines. */
struct maldjupp_counted {
    uint32_t number;
    struct maldjupp_canvas canvas;
    uint64_t steps;
};

struct maldjupp_boxed {
    uint32_t number;
    struct maldjupp_box area;
};

struct maldjupp_pixel {
    uint32_t number, value;
};

/* Colours and brushes. */
static inline struct maldjupp_color maldjupp_rgba(uint8_t r, uint8_t g, uint8_t b, uint8_t a) {
    struct maldjupp_color c = {r, g, b, a};
    return c;
}

static inline struct maldjupp_color maldjupp_rgb(uint8_t r, uint8_t g, uint8_t b) { return maldjupp_rgba(r, g, b, 255); }

static inline struct maldjupp_brush maldjupp_solid(struct maldjupp_color c) {
    struct maldjupp_brush brush = {0, c, c, 0, 0, 0, 0};
    return brush;
}

static inline struct maldjupp_brush maldjupp_vgrad(float y0, float y1, struct maldjupp_color c0, struct maldjupp_color c1) {
    struct maldjupp_brush brush = {1, c0, c1, y0, y1, 0, 0};
    return brush;
}

static inline struct maldjupp_brush maldjupp_linear(struct maldjupp_pt p0, struct maldjupp_pt p1, struct maldjupp_color c0,
                                                    struct maldjupp_color c1) {
    struct maldjupp_brush brush = {2, c0, c1, p0.x, p0.y, p1.x, p1.y};
    return brush;
}

static inline struct maldjupp_brush maldjupp_radial(struct maldjupp_pt c, float r, struct maldjupp_color c0, struct maldjupp_color c1) {
    struct maldjupp_brush brush = {3, c0, c1, c.x, c.y, r, 0};
    return brush;
}

/* A canvas with all of it as clip and nothing saved; its pixels are then 0, the words of a row past its width as they came. A side below 1 is
 * raised to 1; the pitch is held to the raised width, and `pixels` must be the pitch times the raised height. Refused, by 2, 15 or 8, the state is
 * zeros. */
struct maldjupp_done maldjupp_new(int32_t w, int32_t h, size_t pitch, uint32_t *px, size_t pixels);

/* The state of a canvas of a size and pitch with all of it as clip and nothing saved, as maldjupp_new returns it; no pixel is touched. So a canvas
 * call, or a step of a panel, can be given pixels that a sheet was painted on. */
static inline struct maldjupp_canvas maldjupp_whole(int32_t w, int32_t h, size_t pitch) {
    struct maldjupp_canvas canvas = {w, h, pitch, {0, 0, w, h}, {{0, 0, 0, 0}}, 0};
    return canvas;
}

/* Another size, as if new, with the state's pitch; the same size alters nothing. `px` is for the new size, sides below 1 raised: the pitch times
 * the new height. Refused by 15 where the pitch is outside the state's own width to 4,096, or below the width that is wanted. */
struct maldjupp_done maldjupp_resize(struct maldjupp_canvas canvas, int32_t w, int32_t h, uint32_t *px, size_t pixels);

/* The whole canvas, and the clip. */
struct maldjupp_boxed maldjupp_bounds(struct maldjupp_canvas canvas);
struct maldjupp_boxed maldjupp_clip(struct maldjupp_canvas canvas);

/* Saves the clip and cuts it to the pixels around a rectangle, or to any box; refused by 7 while 16 are saved. */
struct maldjupp_done maldjupp_push_clip(struct maldjupp_canvas canvas, struct maldjupp_rect rect);
struct maldjupp_done maldjupp_push_clip_i(struct maldjupp_canvas canvas, struct maldjupp_box box);

/* Takes back the clip saved last; does nothing where none is saved. */
struct maldjupp_done maldjupp_pop_clip(struct maldjupp_canvas canvas);

/* Sets every pixel of the canvas to a colour, whatever the clip; the words of a row past the width stay as they came. */
struct maldjupp_done maldjupp_clear(struct maldjupp_canvas canvas, uint32_t *px, size_t pixels, struct maldjupp_color color);

/* The pixel in column x and row y, each brought to the nearest inside: px[y * pitch + x]. */
struct maldjupp_pixel maldjupp_get(struct maldjupp_canvas canvas, const uint32_t *px, size_t pixels, int32_t x, int32_t y);

/* A rectangle with round corners, a rectangle, and a circle, filled. */
struct maldjupp_counted maldjupp_fill_rrect(struct maldjupp_canvas canvas, uint32_t *px, size_t pixels, struct maldjupp_rect rect, float r,
                                            struct maldjupp_brush brush);
struct maldjupp_counted maldjupp_fill_rect(struct maldjupp_canvas canvas, uint32_t *px, size_t pixels, struct maldjupp_rect rect,
                                           struct maldjupp_brush brush);
struct maldjupp_counted maldjupp_fill_circle(struct maldjupp_canvas canvas, uint32_t *px, size_t pixels, float cx, float cy, float r,
                                             struct maldjupp_brush brush);

/* The outline of a rectangle with round corners, inside its edge, and of a circle. */
struct maldjupp_counted maldjupp_stroke_rrect(struct maldjupp_canvas canvas, uint32_t *px, size_t pixels, struct maldjupp_rect rect, float r,
                                              float width, struct maldjupp_color color);
struct maldjupp_counted maldjupp_ring(struct maldjupp_canvas canvas, uint32_t *px, size_t pixels, float cx, float cy, float r, float width,
                                      struct maldjupp_color color);

/* A line with round ends, and lines from point to point, one after the other. */
struct maldjupp_counted maldjupp_line(struct maldjupp_canvas canvas, uint32_t *px, size_t pixels, struct maldjupp_pt a, struct maldjupp_pt b,
                                      float width, struct maldjupp_color color);
struct maldjupp_counted maldjupp_polyline(struct maldjupp_canvas canvas, uint32_t *px, size_t pixels, const float *points, size_t count,
                                          float width, struct maldjupp_color color);

/* A polygon, filled. With at least 3 points it needs (bw + 2) * bh + 2 words of scratch, where bw and bh are the sides of the box around
 * its points (floors of the least, ceilings of the greatest), each made 2 larger; none where bw * bh is over 4,000,000, since it is not
 * painted then. So many words are left 0. maldjupp_measure tells the same of a sheet that holds the polygon alone. */
struct maldjupp_counted maldjupp_fill_poly(struct maldjupp_canvas canvas, uint32_t *px, size_t pixels, const float *points, size_t count,
                                           struct maldjupp_brush brush, float *scratch, size_t words);

/* The soft shadow of a rectangle with round corners. `skip_inside` is 0 or 1, and with 1 its middle, where it is darkest, is left out; more than 1
 * is refused by 5. */
struct maldjupp_counted maldjupp_shadow_rrect(struct maldjupp_canvas canvas, uint32_t *px, size_t pixels, struct maldjupp_rect rect, float r,
                                              float blur, struct maldjupp_color color, uint32_t skip_inside);

/* ---- The panel's registers
 *
 * A panel takes the pixels of a box one by one, row by row, through eight bytes, little-endian:
 *
 *     0    command: written with a box, 1 loads it; reads 0 always
 *     1    flags: bit 0, a pixel is ready; bit 7, finished, the interrupt; written, 128 clears bit 7
 *     2-3  column of the next pixel
 *     4-5  row of the next pixel
 *     6-7  pixels left in this row, the next one included
 *
 * The box last loaded is held beside them till the next load. A step takes the panel by value and returns it beside its number. All steps of one
 * transfer, from a load to the last take, are given the same canvas state and pixels; px is only read. The box of a patch whose answer is r:
 *
 *     struct maldjupp_canvas c = maldjupp_whole(W, H, W);
 *     struct maldjupp_box area = {r.x0, r.y0, r.x1, r.y1};
 *     struct maldjupp_stepped s = maldjupp_panel_command(maldjupp_panel_fresh(), c, px, W * H, MALDJUPP_LOAD, area);
 *     if (s.number != MALDJUPP_ACCEPTED) ..
 *     while (s.panel.regs[1] & MALDJUPP_PIXEL_READY) {
 *         struct maldjupp_taken t = maldjupp_panel_take(s.panel, c, px, W * H);
 *         if (t.number != MALDJUPP_ACCEPTED) ..
 *         send(t.value), s.panel = t.panel;
 *     }
 *     s = maldjupp_panel_flags(s.panel, c, px, W * H, MALDJUPP_INTERRUPT);
 *
 * A refused take leaves bit 0 set, so that a loop must look at the number too.
 *
 * Every step tests in the order 12, 15, 8, then its own 20, 21 or 22. 12 is given for a state that a canvas cannot be in, and for registers out of
 * order: a command that is not 0, a flag other than bits 0 and 7, or, with bit 0 set, a held box that is empty or leaves the canvas, a place
 * outside that box, or pixels left that are not the rest of its row. With bit 0 clear, bytes 2 to 7 and the held box may be anything. Refused, the
 * panel comes back as it was given, and a take hands over 0. No step of a panel whose registers are out of order is accepted, a load included:
 * maldjupp_panel_fresh begins anew.
 *
 * Proved over every list of steps from a fresh panel, refused ones among them, each given the same canvas state and px, with no other call on the
 * pixels: those that accepted takes handed over since the last accepted load are the first so many of its box, row by row. */

struct maldjupp_panel {
    uint8_t regs[8];
    struct maldjupp_box held;
};

/* The command that loads a box. */
enum maldjupp_command { MALDJUPP_LOAD = 1 };

/* The flags. */
enum maldjupp_flag {
    MALDJUPP_PIXEL_READY = 1, /* bit 0: a pixel is ready */
    MALDJUPP_INTERRUPT = 128  /* bit 7: finished; this value is also what is written to clear it */
};

/* What a write returns. */
struct maldjupp_stepped {
    uint32_t number; /* 0 where accepted, else one of the numbers above */
    struct maldjupp_panel panel;
};

/* What a take returns. */
struct maldjupp_taken {
    uint32_t number; /* 0 where accepted, else one of the numbers above */
    uint32_t value;  /* the pixel, all 32 bits; 0 where refused */
    struct maldjupp_panel panel;
};

/* Column and row of the next pixel, and the pixels left in this row. */
static inline uint32_t maldjupp_panel_column(struct maldjupp_panel panel) { return panel.regs[2] | (uint32_t)panel.regs[3] << 8; }

static inline uint32_t maldjupp_panel_row(struct maldjupp_panel panel) { return panel.regs[4] | (uint32_t)panel.regs[5] << 8; }

static inline uint32_t maldjupp_panel_left(struct maldjupp_panel panel) { return panel.regs[6] | (uint32_t)panel.regs[7] << 8; }

/* A fresh panel: every register and the held box zero. */
struct maldjupp_panel maldjupp_panel_fresh(void);

/* Writes a value to the command, with a box. 1 loads it: the flags are cleared, the registers are those of its first pixel, and bit 0 is set. Of
 * an empty box, which may lie anywhere, bytes 2 to 7 are zero, and bit 7 is set instead. The box is held as given. A load while bit 0 is
 * set starts anew. Refused by 20 for another value, whatever the box, and for a box neither empty nor inside the canvas. */
struct maldjupp_stepped maldjupp_panel_command(struct maldjupp_panel panel, struct maldjupp_canvas canvas, const uint32_t *px, size_t pixels,
                                               uint8_t value, struct maldjupp_box area);

/* Writes a value to the flags. 128 clears bit 7 and leaves bit 0; where bit 7 is clear, nothing is altered. Refused by 21 for another value. */
struct maldjupp_stepped maldjupp_panel_flags(struct maldjupp_panel panel, struct maldjupp_canvas canvas, const uint32_t *px, size_t pixels,
                                             uint8_t value);

/* Takes the pixel at column and row, px[row * pitch + column], and moves on: to the next column, after a row's last to the first of the next, the
 * flags as they were. The last take of a box clears bit 0, leaves bytes 2 to 7 zero and sets bit 7. Refused by 22 while bit 0 is clear. */
struct maldjupp_taken maldjupp_panel_take(struct maldjupp_panel panel, struct maldjupp_canvas canvas, const uint32_t *px, size_t pixels);

#ifdef __cplusplus
}
#endif

#endif
