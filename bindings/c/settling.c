/* Paints the first sheet and patches the pixels through the others: settling OUT SHEET SHEET ..
 *
 * The same is done within a terminal's frame, whose rows are longer than the canvas. After every patch the pixels must be those of a fresh painting,
 * within the frame too, and every word around them as it was. From the frame, the whole ticket is taken through a panel's registers after the
 * painting, and then the box of each patch alone: what was taken must be the ticket after every patch. Prints of each call how many steps of a
 * shape altered a pixel, and how many pixels the ground altered. Writes start.ppm, ticket.ppm (the last), frame.ppm (the last, within the frame)
 * and panel.ppm (what was taken through the panel) into the folder OUT.
 *
 *   cc -std=c11 -Wall -Wextra -Werror -I bindings/c bindings/c/settling.c -L target/staticlib -lmaldjupp -o settling */
#include "maldjupp.h"

#include <stdio.h>
#include <stdlib.h>
#include <string.h>

enum { BYTES = 60000, PIXELS = 640 * 400 };

static uint8_t old[BYTES], new[BYTES];
static uint32_t px[PIXELS], fresh[PIXELS];

/* Scratch, of so many words. */
static float *scratch;
static size_t words;

/* The frame: so many columns left and right of the ticket, and rows above and below it. The pitch is the length of its rows, and `lent` where the
 * ticket's first pixel stands. */
enum { ASIDE = 60, ABOVE = 40 };
static uint32_t *frame, *lent;
static size_t pitch, rows;

/* The panel, the picture of the pixels that were taken through it, and how many: of the whole ticket, and of the boxes. */
static struct maldjupp_panel panel;
static uint32_t sent[PIXELS];
static unsigned long long whole, boxed;

/* The steps of the painting, and of all patches. */
static unsigned long long painted, patched;

/* The bytes of a file; 0 where there is none, or where it is longer than a sheet can be. */
static size_t bytes_of(const char *name, uint8_t sheet[BYTES]) {
    FILE *file = fopen(name, "rb");
    if (!file) return 0;
    size_t n = fread(sheet, 1, BYTES, file);
    if (fgetc(file) != EOF) n = 0;
    fclose(file);
    return n;
}

static size_t width(const uint8_t *sheet) { return sheet[0] | sheet[1] << 8; }

static size_t height(const uint8_t *sheet) { return sheet[2] | sheet[3] << 8; }

/* Makes scratch as large as a sheet needs; whether there is any. A word more keeps the pointer from being null. */
static bool lend(const uint8_t *sheet, size_t n) {
    size_t need = maldjupp_measure(sheet, n).words;
    if (scratch && need <= words) return true;
    free(scratch);
    scratch = calloc(need + 1, sizeof *scratch), words = scratch ? need : 0;
    return scratch != NULL;
}

/* What the frame shows around the ticket: slanting stripes. */
static uint32_t around(size_t i) { return (i % pitch + i / pitch) / 10 % 2 ? 0x2A3440 : 0x364452; }

/* Makes the frame around a sheet; whether there is memory. */
static bool lay(const uint8_t *sheet) {
    pitch = width(sheet) + 2 * ASIDE, rows = height(sheet) + 2 * ABOVE;
    frame = malloc(pitch * rows * sizeof *frame);
    if (!frame) return false;
    lent = frame + ABOVE * pitch + ASIDE;
    for (size_t i = 0; i < pitch * rows; i++) frame[i] = around(i);
    return true;
}

/* Whether the frame shows the ticket's pixels in their place, and around them what it showed before. */
static bool shown(const uint8_t *sheet) {
    for (size_t i = 0; i < pitch * rows; i++) {
        size_t x = i % pitch - ASIDE, y = i / pitch - ABOVE;
        bool inside = x < width(sheet) && y < height(sheet);
        if (frame[i] != (inside ? px[y * width(sheet) + x] : around(i))) return false;
    }
    return true;
}

/* Writes pixels, rows of so many, as a PPM; whether it could. */
static bool write_ppm(const char *folder, const char *name, const uint32_t *from, size_t w, size_t h) {
    char path[4096];
    int fits = snprintf(path, sizeof path, "%s/%s", folder, name);
    FILE *file = 0 < fits && (size_t)fits < sizeof path ? fopen(path, "wb") : NULL;
    if (!file) return fprintf(stderr, "%s cannot be written\n", name), false;
    fprintf(file, "P6\n%zu %zu\n255\n", w, h);
    for (size_t i = 0; i < w * h; i++) {
        uint8_t rgb[3] = {(uint8_t)(from[i] >> 16), (uint8_t)(from[i] >> 8), (uint8_t)from[i]};
        fwrite(rgb, 1, 3, file);
    }
    bool written = !ferror(file);
    if (fclose(file) == 0 && written) return true;
    return fprintf(stderr, "%s cannot be written\n", name), false;
}

static int failed(const char *name, const char *why) { return fprintf(stderr, "%s: %s\n", name, why), 1; }

static int refused(const char *name, struct maldjupp_reply r) {
    fprintf(stderr, "%s: refused %u at %u\n", name, r.number, r.item);
    return 1;
}

/* Whether two answers are the same, but for what the ground altered, which hangs on what stood there. */
static bool alike(struct maldjupp_reply a, struct maldjupp_reply b) {
    return a.number == b.number && a.item == b.item && a.x0 == b.x0 && a.y0 == b.y0 && a.x1 == b.x1 && a.y1 == b.y1 && a.steps == b.steps;
}

/* Takes a box of the ticket within the frame through the panel, each pixel to its column and row, and acknowledges the interrupt. How many pixels
 * were taken; -1 where a step is refused, or the interrupt does not come. */
static long long take(const uint8_t *sheet, struct maldjupp_box area) {
    struct maldjupp_canvas c = maldjupp_whole((int32_t)width(sheet), (int32_t)height(sheet), pitch);
    size_t lent_words = pitch * height(sheet);
    struct maldjupp_stepped s = maldjupp_panel_command(panel, c, lent, lent_words, MALDJUPP_LOAD, area);
    if (s.number != MALDJUPP_ACCEPTED) return -1;
    long long count = 0;
    while (s.panel.regs[1] & MALDJUPP_PIXEL_READY) {
        struct maldjupp_taken t = maldjupp_panel_take(s.panel, c, lent, lent_words);
        if (t.number != MALDJUPP_ACCEPTED) return -1;
        sent[maldjupp_panel_row(s.panel) * width(sheet) + maldjupp_panel_column(s.panel)] = t.value;
        s.panel = t.panel, count++;
    }
    if (!(s.panel.regs[1] & MALDJUPP_INTERRUPT)) return -1;
    s = maldjupp_panel_flags(s.panel, c, lent, lent_words, MALDJUPP_INTERRUPT), panel = s.panel;
    return s.number == MALDJUPP_ACCEPTED && panel.regs[1] == 0 ? count : -1;
}

/* Takes a box, adds its pixels to a count, and holds what was taken so far to the ticket; 0 where it is the ticket. */
static int through_panel(const char *name, const uint8_t *sheet, struct maldjupp_box area, unsigned long long *count) {
    long long taken = take(sheet, area);
    if (taken != (long long)(area.x1 - area.x0) * (area.y1 - area.y0)) return failed(name, "the box was not taken through the panel");
    *count += (unsigned long long)taken;
    bool same = memcmp(sent, px, 4 * width(sheet) * height(sheet)) == 0;
    return same ? 0 : failed(name, "what was taken through the panel is not the ticket");
}

/* Patches from the old sheet to the file's, and holds the pixels to a fresh painting; 0 where all is as it should be. */
static int patch(const char *name, size_t *n) {
    size_t m = bytes_of(name, new), w = width(old), pixels = w * height(old);
    if (!lend(new, m)) return failed(name, "there is no memory");
    struct maldjupp_reply r = maldjupp_patch(old, *n, new, m, w, px, pixels, scratch, words);
    if (r.number != MALDJUPP_ACCEPTED) return refused(name, r);
    if (!alike(r, maldjupp_patch(old, *n, new, m, pitch, lent, pitch * height(old), scratch, words)))
        return failed(name, "the answer within the frame is another");
    maldjupp_paint(new, m, w, fresh, pixels, scratch, words);
    if (memcmp(px, fresh, 4 * pixels) != 0) return failed(name, "the pixels are not those of a fresh painting");
    if (!shown(new)) return failed(name, "the frame does not show the ticket in its place, or was altered around it");
    struct maldjupp_box area = {r.x0, r.y0, r.x1, r.y1};
    if (through_panel(name, new, area, &boxed) != 0) return 1;
    const char *file = strrchr(name, '/');
    printf("patched %-16s box %3d x %3d at %3d,%3d: %6llu steps, %6llu grounded\n", file ? file + 1 : name, r.x1 - r.x0, r.y1 - r.y0, r.x0,
           r.y0, (unsigned long long)r.steps, (unsigned long long)r.grounded);
    memcpy(old, new, *n = m), patched += r.steps;
    return 0;
}

/* Paints the old sheet, on pixels of its own and within the frame, and tells what it takes; 0 where both are accepted. */
static int paint(const char *name, size_t n) {
    size_t w = width(old), pixels = w * height(old);
    if (!lend(old, n)) return failed(name, "there is no memory");
    struct maldjupp_reply r = maldjupp_paint(old, n, w, px, pixels < PIXELS ? pixels : PIXELS, scratch, words);
    if (r.number != MALDJUPP_ACCEPTED) return refused(name, r);
    if (!lay(old)) return failed(name, "there is no memory");
    struct maldjupp_reply f = maldjupp_paint(old, n, pitch, lent, pitch * height(old), scratch, words);
    if (!alike(r, f) || !shown(old)) return failed(name, "the frame does not show the ticket in its place, or was altered around it");
    struct maldjupp_room room = maldjupp_measure(old, n);
    printf("painted %zu x %zu: %zu words of scratch, %zu clips saved at once, %llu pixels in its shapes, %llu steps, %llu grounded\n", w,
           height(old), room.words, room.saved, (unsigned long long)room.pixels, (unsigned long long)r.steps, (unsigned long long)r.grounded);
    painted = r.steps, panel = maldjupp_panel_fresh(), memset(sent, 255, sizeof sent);
    struct maldjupp_box area = {r.x0, r.y0, r.x1, r.y1};
    return through_panel(name, old, area, &whole);
}

int main(int count, char **given) {
    if (count < 3) return fprintf(stderr, "usage: settling OUT SHEET SHEET ..\n"), 2;
    size_t n = bytes_of(given[2], old);
    if (paint(given[2], n) != 0 || !write_ppm(given[1], "start.ppm", px, width(old), height(old))) return 1;
    for (int i = 3; i < count; i++)
        if (patch(given[i], &n) != 0) return 1;
    if (!write_ppm(given[1], "ticket.ppm", px, width(old), height(old)) || !write_ppm(given[1], "frame.ppm", frame, pitch, rows) ||
        !write_ppm(given[1], "panel.ppm", sent, width(old), height(old)))
        return 1;
    printf("%d patches: after each, the pixels are those of a fresh painting\n", count - 3);
    printf("the same within a frame of %zu x %zu: the same pixels and answers, and every word around as it was\n", pitch, rows);
    printf("taken through the panel: %llu pixels of the painting and %llu of the boxes give the ticket after each patch; ", whole, boxed);
    printf("the whole picture each time would be %llu\n", whole * (unsigned long long)(count - 3));
    printf("steps that altered a pixel: %llu of the painting, %llu of all patches\n", painted, patched);
    free(frame), free(scratch);
    return 0;
}
