/* Blits and text by whole bytes, as C would do it that is to be fast: eight cells are one number, from a window of
   the sprite's bytes, whose low and high bits are spread to two digits of 16 bits by tables that are made once; the
   colours are looked up once a call; then what stands in the framebuffer is read and written once for all eight.

       bytes_blit CALL COUNT DATA FONT IMAGE ARGUMENT..

   as plain.c. Before blits the sprite at 8192 fills the screen, so that there is something to read in it. */
#include <stdint.h>
#include <stdio.h>
#include <stdlib.h>
#include <string.h>
#include <time.h>

static uint8_t page[65536 + 8], font[1792], image[76815];
static unsigned colors = 0x1342;
static const uint8_t palette[4][3] = {{0xe0, 0xf8, 0xcf}, {0x86, 0xc0, 0x6c}, {0x30, 0x68, 0x50}, {0x07, 0x18, 0x21}};

/* The bits of a byte as digits 0 or 3, the first pixel the lowest digit; and the last one, for what is flipped. */
static uint16_t spread[256], spread_back[256];
static uint8_t low[256], high[256], low_back[256], high_back[256];

typedef struct {
    uint32_t value[4], mask[4];
} Inks;

static void make_tables(void) {
    for (int b = 0; b < 256; b++) {
        for (int k = 0; k < 8; k++) {
            spread[b] |= (b >> (7 - k) & 1) * 3 << 2 * k;
            spread_back[b] |= (b >> k & 1) * 3 << 2 * k;
        }
        for (int k = 0; k < 4; k++) {
            low[b] |= (b >> (6 - 2 * k) & 1) * 3 << 2 * k;
            high[b] |= (b >> (7 - 2 * k) & 1) * 3 << 2 * k;
            low_back[b] |= (b >> 2 * k & 1) * 3 << 2 * k;
            high_back[b] |= (b >> (2 * k + 1) & 1) * 3 << 2 * k;
        }
    }
}

static Inks inks_of(unsigned draw_colors) {
    Inks inks;
    for (int v = 0; v < 4; v++) {
        unsigned nibble = draw_colors >> 4 * v & 15;
        inks.value[v] = nibble ? 0x5555 * ((nibble - 1) & 3) : 0;
        inks.mask[v] = nibble ? 0xffff : 0;
    }
    return inks;
}

/* Paints the first `count` of eight cells from (u, v) on, whose values have these low and high bits. */
static inline void put_eight(const Inks *inks, int u, int v, int count, uint32_t lows, uint32_t highs, int two) {
    uint32_t value = inks->value[0] ^ (lows & (inks->value[0] ^ inks->value[1]));
    uint32_t mask = inks->mask[0] ^ (lows & (inks->mask[0] ^ inks->mask[1]));
    if (two) {
        uint32_t value2 = inks->value[2] ^ (lows & (inks->value[2] ^ inks->value[3]));
        uint32_t mask2 = inks->mask[2] ^ (lows & (inks->mask[2] ^ inks->mask[3]));
        value ^= highs & (value ^ value2);
        mask ^= highs & (mask ^ mask2);
    }
    mask &= 0xffffu >> 2 * (8 - count);
    int shift = 2 * (u & 3);
    uint8_t *at = &page[160 + 40 * v + u / 4];
    uint32_t old;
    memcpy(&old, at, 4);
    old ^= (old ^ value << shift) & mask << shift;
    memcpy(at, &old, 4);
}

/* Where sprites are read: the page, or a copy of one that lies in the framebuffer. */
static uint8_t kept[65536 + 8];
static const uint8_t *source = page;

static void keep(unsigned ptr, int64_t cells, unsigned flags) {
    source = page;
    if (6560 <= ptr) return;
    int64_t len = flags & 1 ? cells / 4 + 3 : cells / 8 + 2;
    memcpy(&kept[ptr], &page[ptr], len < 65536 - ptr ? len : 65536 - ptr);
    source = kept;
}

static inline unsigned byte_at(int64_t at) { return at < 65536 ? source[at] : 0; }

static void upright(const Inks *inks, unsigned ptr, int x, int y, int w, int h, unsigned flags) {
    int left = x < 0 ? 0 : x, right = x + w < 160 ? x + w : 160;
    int top = y < 0 ? 0 : y, bottom = y + h < 160 ? y + h : 160;
    int two = flags & 1, back = flags >> 1 & 1;
    for (int v = top; v < bottom; v++) {
        int64_t row = (int64_t)(flags & 4 ? h - 1 - (v - y) : v - y) * w;
        for (int u = left; u < right; u += 8) {
            int count = right - u < 8 ? right - u : 8, more = 0;
            int64_t pixel = row + (u - x);
            if (back) {
                pixel = row + w - 1 - (u - x) - 7;
                if (pixel < 0) more = -pixel, pixel = 0;
            }
            uint32_t lows, highs = 0;
            if (two) {
                int64_t at = ptr + pixel / 4;
                int shift = 2 * (pixel & 3);
                unsigned window = (byte_at(at) << 16 | byte_at(at + 1) << 8 | byte_at(at + 2)) << shift >> 8;
                unsigned first = window >> 8 & 255, second = window & 255;
                if (back) {
                    lows = low_back[second] | low_back[first] << 8;
                    highs = high_back[second] | high_back[first] << 8;
                } else {
                    lows = low[first] | low[second] << 8;
                    highs = high[first] | high[second] << 8;
                }
            } else {
                int64_t at = ptr + pixel / 8;
                unsigned window = (byte_at(at) << 8 | byte_at(at + 1)) << (pixel & 7) >> 8 & 255;
                lows = back ? spread_back[window] : spread[window];
            }
            put_eight(inks, u, v, count, lows >> 2 * more, highs >> 2 * more, two);
        }
    }
}

/* For many cells: what each four of them paint is looked up in two tables of this call, and each byte of the
   framebuffer is written once. The cells of a byte are two, four or eight bits of the sprite. */
static void large(const Inks *inks, unsigned ptr, int x, int y, int w, int h, unsigned flags) {
    uint8_t value[256], mask[256];
    int two = flags & 1, back = flags >> 1 & 1, bits = two ? 2 : 1;
    for (int cells = 0; cells < (two ? 256 : 16); cells++) {
        value[cells] = mask[cells] = 0;
        for (int k = 0; k < 4; k++) {
            int v = cells >> bits * (back ? k : 3 - k) & (two ? 3 : 1);
            value[cells] |= (inks->value[v] & 3) << 2 * k;
            mask[cells] |= (inks->mask[v] & 3) << 2 * k;
        }
    }
    int left = x < 0 ? 0 : x, right = x + w < 160 ? x + w : 160;
    int top = y < 0 ? 0 : y, bottom = y + h < 160 ? y + h : 160;
    if (right <= left) return;
    int first = left / 4, last = (right - 1) / 4;
    uint8_t first_edge = 0xff << 2 * (left & 3), last_edge = 0xff >> 2 * (3 - (right - 1) % 4);
    unsigned every = two ? 255 : 15, in_byte = two ? 3 : 7, byte_shift = two ? 2 : 3;
    for (int v = top; v < bottom; v++) {
        int64_t row = (int64_t)(flags & 4 ? h - 1 - (v - y) : v - y) * w;
        int64_t pixel = back ? row + w - 4 - (4 * first - x) : row + 4 * first - x;
        uint8_t *at = &page[160 + 40 * v];
            int64_t begin = ptr + (pixel >> byte_shift);
        if (two && !back && begin + 42 < 65536) {
            /* Each next byte of the framebuffer takes one more of the sprite, at the same shift. */
            const uint8_t *from = &source[begin];
            unsigned window = *from++, shift = 8 - 2 * (pixel & 3);
            uint8_t last_mask = last_edge, edge = first_edge;
            for (int q = first; q < last; q++, edge = 0xff) {
                window = window << 8 | *from++;
                unsigned cells = window >> shift & 255;
                uint8_t m = mask[cells] & edge;
                at[q] = (at[q] & ~m) | (value[cells] & m);
            }
            unsigned cells = (window << 8 | *from) >> shift & 255;
            uint8_t m = mask[cells] & edge & last_mask;
            at[last] = (at[last] & ~m) | (value[cells] & m);
            continue;
        }
        for (int q = first; q <= last; q++, pixel += back ? -4 : 4) {
            int64_t from = ptr + (pixel >> byte_shift);
            unsigned window = byte_at(from) << 8 | byte_at(from + 1);
            unsigned cells = window >> (16 - 4 * bits - bits * (pixel & in_byte)) & every;
            uint8_t edge = (q == first ? first_edge : 0xff) & (q == last ? last_edge : 0xff);
            uint8_t m = mask[cells] & edge;
            at[q] = (at[q] & ~m) | (value[cells] & m);
        }
    }
}

static unsigned source_value(unsigned ptr, int64_t q, unsigned flags) {
    return flags & 1 ? byte_at(ptr + q / 4) >> (6 - 2 * (q & 3)) & 3 : byte_at(ptr + q / 8) >> (7 - (q & 7)) & 1;
}

static void turned(const Inks *inks, unsigned ptr, int x, int y, int w, int h, unsigned flags) {
    int left = x < 0 ? 0 : x, right = x + h < 160 ? x + h : 160;
    int top = y < 0 ? 0 : y, bottom = y + w < 160 ? y + w : 160;
    for (int v = top; v < bottom; v++) {
        int column = flags & 2 ? v - y : w - 1 - (v - y);
        for (int u = left; u < right; u += 8) {
            int count = right - u < 8 ? right - u : 8;
            uint32_t lows = 0, highs = 0;
            for (int k = 0; k < count; k++) {
                int64_t row = flags & 4 ? h - 1 - (u + k - x) : u + k - x;
                unsigned value = source_value(ptr, row * w + column, flags);
                lows |= (value & 1) * 3 << 2 * k;
                highs |= (value >> 1) * 3 << 2 * k;
            }
            put_eight(inks, u, v, count, lows, highs, 1);
        }
    }
}

static void blit(unsigned ptr, int x, int y, int w, int h, unsigned flags) {
    Inks inks = inks_of(colors);
    keep(ptr, (int64_t)w * h, flags);
    if (flags & 8) turned(&inks, ptr, x, y, w, h, flags);
    else if (2048 <= (int64_t)w * h && 16 <= ptr) large(&inks, ptr, x, y, w, h, flags);
    else upright(&inks, ptr, x, y, w, h, flags);
}

static void text(unsigned ptr, int x, int y) {
    Inks inks = inks_of(colors);
    for (int line = x; ptr < 65536 && page[ptr] != 0; ptr++) {
        int code = page[ptr];
        if (code == 10) {
            x = line, y += 8;
            continue;
        }
        int left = x < 0 ? 0 : x, right = x + 8 < 160 ? x + 8 : 160;
        if (32 <= code && left < right)
            for (int v = y < 0 ? 0 : y; v < y + 8 && v < 160; v++)
                put_eight(&inks, left, v, right - left, spread[font[8 * (code - 32) + v - y]] >> 2 * (left - x), 0, 0);
        x += 8;
    }
}

static void ppm(void) {
    memcpy(image, "P6\n160 160\n255\n", 15);
    for (int place = 0; place < 25600; place++) {
        int index = page[160 + place / 4] >> 2 * (place % 4) & 3;
        memcpy(&image[15 + 3 * place], palette[index], 3);
    }
}

static void call(const char *name, const int *a) {
    if (!strcmp(name, "blit")) blit(a[0], a[1], a[2], a[3], a[4], a[5]);
    else if (!strcmp(name, "text")) text(a[0], a[1], a[2]);
    else exit(2);
}

static void read_file(const char *path, uint8_t *into, size_t most) {
    FILE *file = fopen(path, "rb");
    if (!file || !fread(into, 1, most, file)) exit(3);
    fclose(file);
}

int main(int count, char **words) {
    if (count < 6) return 2;
    int arguments[6] = {0};
    for (int i = 6; i < count && i < 12; i++) arguments[i - 6] = atoi(words[i]);
    read_file(words[3], page + 8192, 8192);
    read_file(words[4], font, sizeof font);
    make_tables();
    if (!strcmp(words[1], "blit")) blit(8192, 0, 0, 160, 160, 1);
    struct timespec before, after;
    clock_gettime(CLOCK_PROCESS_CPUTIME_ID, &before);
    for (int i = atoi(words[2]); 0 < i; i--) call(words[1], arguments);
    clock_gettime(CLOCK_PROCESS_CPUTIME_ID, &after);
    double taken = (after.tv_sec - before.tv_sec) * 1e6 + (after.tv_nsec - before.tv_nsec) / 1e3;
    printf("%.4f\n", taken / atoi(words[2]));
    ppm();
    FILE *file = fopen(words[5], "wb");
    if (!file || fwrite(image, 1, sizeof image, file) != sizeof image || fclose(file)) return 4;
    return 0;
}
