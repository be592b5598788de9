/* The drawing calls as plainly as they can be written: every cell is asked for and painted by itself, in the
   packed framebuffer of the memory map. What w4 takes for the same pixels is compared with this.

       plain CALL COUNT DATA FONT IMAGE ARGUMENT..

   does the call so often, writes the image, and prints microseconds a call. The bytes of DATA stand in the
   page from 8192 on. Before blits they fill the screen, so that there is something to read in it. */
#include <stdint.h>
#include <stdio.h>
#include <stdlib.h>
#include <string.h>
#include <time.h>

static uint8_t page[65536], before[6560], font[1792], image[76815];
static unsigned colors = 0x1342;
static const uint8_t palette[4][3] = {{0xe0, 0xf8, 0xcf}, {0x86, 0xc0, 0x6c}, {0x30, 0x68, 0x50}, {0x07, 0x18, 0x21}};

static void cell(int x, int y, int number) {
    if (x < 0 || 160 <= x || y < 0 || 160 <= y) return;
    int nibble = colors >> (4 * (number - 1)) & 15;
    if (nibble == 0) return;
    int place = 160 * y + x, shift = 2 * (place % 4);
    uint8_t *byte = &page[160 + place / 4];
    *byte = (*byte & ~(3 << shift)) | ((nibble - 1) & 3) << shift;
}

static void hline(int x, int y, int len) {
    for (int i = 0; i < len; i++) cell(x + i, y, 1);
}

static void vline(int x, int y, int len) {
    for (int i = 0; i < len; i++) cell(x, y + i, 1);
}

static void rect(int x, int y, int w, int h) {
    for (int j = 0; j < h; j++)
        for (int i = 0; i < w; i++)
            cell(x + i, y + j, i == 0 || i == w - 1 || j == 0 || j == h - 1 ? 2 : 1);
}

static int within(int64_t w, int64_t h, int64_t i, int64_t j) {
    __int128 a = 2 * i + 1 - w, b = 2 * j + 1 - h;
    return a * a * h * h + b * b * w * w <= (__int128)w * w * h * h;
}

static void oval(int x, int y, int w, int h) {
    for (int j = 0; j < h; j++)
        for (int i = 0; i < w; i++)
            if (within(w, h, i, j)) {
                int inner = within(w, h, i - 1, j) && within(w, h, i + 1, j)
                    && within(w, h, i, j - 1) && within(w, h, i, j + 1);
                cell(x + i, y + j, inner ? 1 : 2);
            }
}

static void line(int x1, int y1, int x2, int y2) {
    if (y2 < y1) {
        int x = x1, y = y1;
        x1 = x2, y1 = y2, x2 = x, y2 = y;
    }
    int64_t wide = llabs((int64_t)x2 - x1), high = (int64_t)y2 - y1, most = wide < high ? high : wide;
    int right = x1 <= x2 ? 1 : -1;
    for (int64_t t = 0, i = (most - 1) / 2, j = i; t <= most; t++) {
        cell(x1, y1, 1);
        if ((i += wide) >= most) i -= most, x1 += right;
        if ((j += high) >= most) j -= most, y1++;
    }
}

static int source_value(unsigned ptr, int64_t q, unsigned flags) {
    int64_t at = ptr + (flags & 1 ? q / 4 : q / 8);
    int byte = at < 6560 ? before[at] : at < 65536 ? page[at] : 0;
    return flags & 1 ? byte >> (6 - 2 * (q % 4)) & 3 : byte >> (7 - q % 8) & 1;
}

static void blit(unsigned ptr, int x, int y, int w, int h, unsigned flags) {
    int turned = flags >> 3 & 1, backward = (flags >> 1 & 1) != turned;
    if (ptr < sizeof before) memcpy(before, page, sizeof before);
    for (int j = 0; j < h; j++)
        for (int i = 0; i < w; i++) {
            int64_t column = backward ? w - 1 - i : i, row = flags & 4 ? h - 1 - j : j;
            int value = source_value(ptr, row * w + column, flags);
            cell(turned ? x + j : x + i, turned ? y + i : y + j, value + 1);
        }
}

static void text(unsigned ptr, int x, int y) {
    for (int left = x; ptr < 65536 && page[ptr] != 0; ptr++) {
        int code = page[ptr];
        if (code == 10) {
            x = left, y += 8;
            continue;
        }
        if (32 <= code)
            for (int j = 0; j < 8; j++)
                for (int i = 0; i < 8; i++)
                    cell(x + i, y + j, (font[8 * (code - 32) + j] >> (7 - i) & 1) + 1);
        x += 8;
    }
}

static void ppm(void) {
    memcpy(image, "P6\n160 160\n255\n", 15);
    for (int place = 0; place < 25600; place++) {
        int index = page[160 + place / 4] >> 2 * (place % 4) & 3;
        memcpy(&image[15 + 3 * place], palette[index], 3);
    }
}

static void call(const char *name, const int *a) {
    if (!strcmp(name, "hline")) hline(a[0], a[1], a[2]);
    else if (!strcmp(name, "vline")) vline(a[0], a[1], a[2]);
    else if (!strcmp(name, "rect")) rect(a[0], a[1], a[2], a[3]);
    else if (!strcmp(name, "oval")) oval(a[0], a[1], a[2], a[3]);
    else if (!strcmp(name, "line")) line(a[0], a[1], a[2], a[3]);
    else if (!strcmp(name, "blit")) blit(a[0], a[1], a[2], a[3], a[4], a[5]);
    else if (!strcmp(name, "text")) text(a[0], a[1], a[2]);
    else if (!strcmp(name, "image")) ppm();
    else exit(2);
}

static void read_file(const char *path, uint8_t *into, size_t most) {
    FILE *file = fopen(path, "rb");
    if (!file || !fread(into, 1, most, file)) exit(3);
    fclose(file);
}

int main(int count, char **words) {
    if (count < 6) return 2;
    int arguments[6] = {0};
    for (int i = 6; i < count && i < 12; i++) arguments[i - 6] = atoi(words[i]);
    read_file(words[3], page + 8192, 8192);
    read_file(words[4], font, sizeof font);
    if (!strcmp(words[1], "blit")) blit(8192, 0, 0, 160, 160, 1);
    struct timespec begun, ended;
    clock_gettime(CLOCK_PROCESS_CPUTIME_ID, &begun);
    for (int i = atoi(words[2]); 0 < i; i--) call(words[1], arguments);
    clock_gettime(CLOCK_PROCESS_CPUTIME_ID, &ended);
    double taken = (ended.tv_sec - begun.tv_sec) * 1e6 + (ended.tv_nsec - begun.tv_nsec) / 1e3;
    printf("%.4f\n", taken / atoi(words[2]));
    ppm();
    FILE *file = fopen(words[5], "wb");
    if (!file || fwrite(image, 1, sizeof image, file) != sizeof image || fclose(file)) return 4;
    return 0;
}
