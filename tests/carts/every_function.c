// What wasm4.h has, each once: tests/build-examples says what has to come of it.
#include "wasm4.h"

static const uint8_t sprite[] = {0x1b, 0xe4, 0x35, 0xc6};
static uint8_t disk[] = {1, 2, 3, 4}, loaded[4];

EXPORT("update") void update(void) {
    PALETTE[3] = 0x123456;
    DRAW_COLORS = 0x1234;
    SYSTEM_FLAGS = SYSTEM_PRESERVE_FRAMEBUFFER;
    blit(sprite, 1, 2, 4, 3, BLIT_2BPP | BLIT_FLIP_X);
    blitSub(sprite, 20, 2, 3, 2, 1, 2, 4, BLIT_2BPP);
    line(3, 20, 30, 28);
    hline(40, 30, 7);
    vline(50, 40, 9);
    oval(60, 50, 11, 13);
    rect(80, 60, 15, 17);
    text("A", 100, 70);
    textUtf8("BC", 2, 110, 80);
    textUtf16(u"DE", 4, 120, 90);
    uint32_t duration = 1 | 2 << 8 | 3 << 16 | 4 << 24, volume = 50 | 80 << 8;
    tone(440 | 220 << 16, duration, volume, TONE_PULSE2 | TONE_MODE3 | TONE_PAN_LEFT);
    uint32_t saved = diskw(disk, 3), read = diskr(loaded, 4);
    trace("a");
    traceUtf8("bc", 2);
    traceUtf16(u"de", 4);
    tracef("%d %d %x %s%c", saved, read, 255, "f", 'g');
    tracef("%d %d %d %d", GAMEPADS[3], MOUSE_X, MOUSE_Y, MOUSE_BUTTONS);
}
