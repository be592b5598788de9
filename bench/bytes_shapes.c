/* Rectangles, lines and ovals as C draws them that works by whole bytes: of a span two masked bytes and a fill
   between, of a column one masked byte a row, of an oval the span of each row. Instructions are counted against it
   (`valgrind --tool=callgrind`).

       bytes_shapes CALL COUNT DATA FONT IMAGE ARGUMENT..

   does the call so often, writes the image, and prints microseconds a call. DATA and FONT are for other calls. */
#include <stdint.h>
#include <stdio.h>
#include <stdlib.h>
#include <string.h>
#include <time.h>

static uint8_t page[65536], image[76815];
static unsigned colors = 0x1342;
static const uint8_t palette[4][3] = {{0xe0, 0xf8, 0xcf}, {0x86, 0xc0, 0x6c}, {0x30, 0x68, 0x50}, {0x07, 0x18, 0x21}};

/* four times the palette index of a colour, in one byte; -1 where it is transparent */
static int filled(int number) {
    int nibble = colors >> (4 * (number - 1)) & 15;
    return nibble == 0 ? -1 : 85 * ((nibble - 1) & 3);
}

static int clip(int64_t z) {
    return z < 0 ? 0 : 160 < z ? 160 : (int)z;
}

static void put(uint8_t *byte, int mask, int fill) {
    *byte = (*byte & ~mask) | (fill & mask);
}

/* the columns from `left` up to `right`, on the screen, of row `y` of it */
static void span(int left, int right, int y, int fill) {
    if (right <= left) return;
    uint8_t *row = page + 160 + 40 * y;
    int first = left / 4, last = right / 4, low = 255 << 2 * (left % 4) & 255, high = (1 << 2 * (right % 4)) - 1;
    if (first == last) {
        put(row + first, low & high, fill);
        return;
    }
    put(row + first, low, fill);
    memset(row + first + 1, fill, last - first - 1);
    if (high) put(row + last, high, fill);
}

/* the rows from `top` up to `bottom`, on the screen, of column `x` of it */
static void column(int x, int top, int bottom, int fill) {
    int mask = 3 << 2 * (x % 4);
    fill &= mask;
    for (uint8_t *byte = page + 160 + 40 * top + x / 4; top < bottom; top++, byte += 40) *byte = (*byte & ~mask) | fill;
}

static void hline(int x, int y, int len) {
    int fill = filled(1);
    if (fill < 0 || len <= 0 || y < 0 || 160 <= y) return;
    span(clip(x), clip((int64_t)x + len), y, fill);
}

static void vline(int x, int y, int len) {
    int fill = filled(1);
    if (fill < 0 || len <= 0 || x < 0 || 160 <= x) return;
    column(x, clip(y), clip((int64_t)y + len), fill);
}

static void rect(int x, int y, int w, int h) {
    if (w <= 0 || h <= 0) return;
    int64_t right = (int64_t)x + w, bottom = (int64_t)y + h;
    int x0 = clip(x), x1 = clip(right), y0 = clip(y), y1 = clip(bottom), fill = filled(1), edge = filled(2);
    if (0 <= fill)
        for (int row = y0; row < y1; row++) span(x0, x1, row, fill);
    if (edge < 0) return;
    if (0 <= y && y < 160) span(x0, x1, y, edge);
    if (1 <= bottom && bottom <= 160) span(x0, x1, (int)bottom - 1, edge);
    if (0 <= x && x < 160) column(x, y0, y1, edge);
    if (1 <= right && right <= 160) column((int)right - 1, y0, y1, edge);
}

/* whether cell (i, j) of w by h is within: in 64 bits where the products fit, which sides below 16384 make sure of */
static int within(int64_t w, int64_t h, int64_t i, int64_t j) {
    int64_t a = 2 * i + 1 - w, b = 2 * j + 1 - h;
    if (w < 16384 && h < 16384) return a * a * h * h + b * b * w * w <= w * w * h * h;
    return (__int128)a * a * h * h + (__int128)b * b * w * w <= (__int128)w * w * h * h;
}

/* The first cell within of row j, found from that of a row beside it; at most w / 2, and above it where there is
   none. The right half mirrors the left. Cells left of the screen's first column but one aren't looked at. */
static int64_t first_within(int64_t w, int64_t h, int64_t j, int64_t near, int64_t least, int64_t most) {
    while (least < near && within(w, h, near - 1, j)) near--;
    while (near < most && !within(w, h, near, j)) near++;
    return near;
}

static void put_cells(int64_t x, int64_t left, int64_t right, int y, int fill) {
    if (0 <= fill && left < right) span(clip(x + left), clip(x + right), y, fill);
}

static int64_t larger(int64_t a, int64_t b) {
    return a < b ? b : a;
}

static int64_t smaller(int64_t a, int64_t b) {
    return a < b ? a : b;
}

static void oval(int x, int y, int w, int h) {
    if (w <= 0 || h <= 0) return;
    int fill = filled(1), edge = filled(2);
    int top = clip(y), bottom = clip((int64_t)y + h);
    if (edge < 0) edge = fill;
    /* of columns that aren't on the screen one at each side is looked at, in the left half or mirrored into it */
    int64_t half = (w + 1) / 2, left = -1 - (int64_t)x, right = (int64_t)x + w - 161;
    int64_t least = larger(0, smaller(smaller(left, right), half)), above, here = half, below;
    above = first_within(w, h, (int64_t)top - 1 - y, here, least, half);
    here = first_within(w, h, (int64_t)top - y, above, least, half);
    for (int row = top; row < bottom; row++, above = here, here = below) {
        below = first_within(w, h, (int64_t)row + 1 - y, here, least, half);
        int64_t inner = smaller(larger(here + 1, larger(above, below)), w - here);
        int64_t end = larger(w - inner, inner);
        put_cells(x, here, inner, row, edge);
        put_cells(x, inner, end, row, fill);
        put_cells(x, end, w - here, row, edge);
    }
}

/* Step by step, on the screen by one test for both coordinates; the byte and the mask go along. */
static void line(int x1, int y1, int x2, int y2) {
    int fill = filled(1);
    if (fill < 0) return;
    if (y2 < y1) {
        int x = x1, y = y1;
        x1 = x2, y1 = y2, x2 = x, y2 = y;
    }
    int64_t wide = llabs((int64_t)x2 - x1), high = (int64_t)y2 - y1, most = wide < high ? high : wide;
    int right = x1 <= x2 ? 1 : -1;
    int64_t rest = (most - 1) / 2, less = wide < high ? wide : high;
    for (int64_t t = 0; t <= most; t++) {
        if ((unsigned)x1 < 160 && (unsigned)y1 < 160) put(page + 160 + 40 * y1 + x1 / 4, 3 << 2 * (x1 % 4), fill);
        int aside = (rest += less) >= most;
        if (aside) rest -= most;
        if (high <= wide || aside) x1 += right;
        if (wide < high || aside) y1++;
    }
}

static void call(const char *name, const int *a) {
    if (!strcmp(name, "hline")) hline(a[0], a[1], a[2]);
    else if (!strcmp(name, "vline")) vline(a[0], a[1], a[2]);
    else if (!strcmp(name, "rect")) rect(a[0], a[1], a[2], a[3]);
    else if (!strcmp(name, "oval")) oval(a[0], a[1], a[2], a[3]);
    else if (!strcmp(name, "line")) line(a[0], a[1], a[2], a[3]);
    else exit(2);
}

static void ppm(void) {
    memcpy(image, "P6\n160 160\n255\n", 15);
    for (int place = 0; place < 25600; place++) {
        int index = page[160 + place / 4] >> 2 * (place % 4) & 3;
        memcpy(&image[15 + 3 * place], palette[index], 3);
    }
}

int main(int count, char **words) {
    if (count < 6) return 2;
    int arguments[6] = {0};
    for (int i = 6; i < count && i < 12; i++) arguments[i - 6] = atoi(words[i]);
    struct timespec before, after;
    clock_gettime(CLOCK_PROCESS_CPUTIME_ID, &before);
    for (int i = atoi(words[2]); 0 < i; i--) call(words[1], arguments);
    clock_gettime(CLOCK_PROCESS_CPUTIME_ID, &after);
    double taken = (after.tv_sec - before.tv_sec) * 1e6 + (after.tv_nsec - before.tv_nsec) / 1e3;
    printf("%.4f\n", taken / atoi(words[2]));
    ppm();
    FILE *file = fopen(words[5], "wb");
    if (!file || fwrite(image, 1, sizeof image, file) != sizeof image || fclose(file)) return 4;
    return 0;
}
