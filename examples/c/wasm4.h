// The WASM-4 console as a cart sees it, without floats: the memory map and the 17 functions of
// https://wasm4.org/docs/reference/memory and functions. Copy this file and `build` beside your own game.
#pragma once
#include <stdint.h>

// What the console never takes, where clang's macros tell that it may occur. Multiple results and reference types don't
// stand here: newer compilers allow them by default, and make none of them of a game in C.
#ifdef __wasm64__
#error "a cart has addresses of 32 bits: build with --target=wasm32, as examples/c/build does"
#endif
#ifdef __wasm_simd128__
#error "the console has no vectors: build without -msimd128, with -mcpu=mvp, as examples/c/build does"
#endif
#ifdef __wasm_atomics__
#error "the console has no threads and no atomics: build without -matomics and -pthread, with -mcpu=mvp"
#endif
#ifdef __wasm_exception_handling__
#error "the console has no exceptions: build without -mexception-handling and -fwasm-exceptions"
#endif
#ifdef __wasm_tail_call__
#error "the console has no tail calls: build without -mtail-call, with -mcpu=mvp, as examples/c/build does"
#endif
#ifdef __wasm_multimemory__
#error "a cart has one memory: build without -mmultimemory, with -mcpu=mvp, as examples/c/build does"
#endif

#define IMPORT(name) __attribute__((import_module("env"), import_name(name)))
#define EXPORT(name) __attribute__((export_name(name)))

enum { SCREEN_SIZE = 160, FONT_SIZE = 8 };

// The memory map. The console writes gamepads and mouse before each frame.
#define PALETTE ((volatile uint32_t *)0x04)              // four colours, each 0xRRGGBB
#define DRAW_COLORS (*(volatile uint16_t *)0x14)         // four hexadecimal digits, draw colour 1 the last
#define GAMEPADS ((const volatile uint8_t *)0x16)        // of four players: sums of BUTTON_..
#define MOUSE_X (*(const volatile int16_t *)0x1a)
#define MOUSE_Y (*(const volatile int16_t *)0x1c)
#define MOUSE_BUTTONS (*(const volatile uint8_t *)0x1e)  // a sum of MOUSE_..
#define SYSTEM_FLAGS (*(volatile uint8_t *)0x1f)         // a sum of SYSTEM_..
#define NETPLAY (*(const volatile uint8_t *)0x20)        // w4 leaves it 0
#define FRAMEBUFFER ((volatile uint8_t *)0xa0)           // 6,400 bytes, four pixels each, the first lowest

enum { BUTTON_1 = 1, BUTTON_2 = 2, BUTTON_LEFT = 16, BUTTON_RIGHT = 32, BUTTON_UP = 64, BUTTON_DOWN = 128 };
enum { MOUSE_LEFT = 1, MOUSE_RIGHT = 2, MOUSE_MIDDLE = 4 };
enum { SYSTEM_PRESERVE_FRAMEBUFFER = 1, SYSTEM_HIDE_GAMEPAD_OVERLAY = 2 };

// A digit of DRAW_COLORS is 0 for what isn't painted, and 1 to 4 for a colour of the palette.
// A sprite has one bit a pixel, or two, the leftmost pixel highest; pixel 0 is painted in draw colour 1.
enum { BLIT_1BPP = 0, BLIT_2BPP = 1, BLIT_FLIP_X = 2, BLIT_FLIP_Y = 4, BLIT_ROTATE = 8 };
IMPORT("blit") void blit(const uint8_t *sprite, int32_t x, int32_t y, uint32_t width, uint32_t height,
                         uint32_t flags);
IMPORT("blitSub") void blitSub(const uint8_t *sprite, int32_t x, int32_t y, uint32_t width, uint32_t height,
                               uint32_t srcX, uint32_t srcY, uint32_t stride, uint32_t flags);

// Lines have draw colour 1; ovals and rectangles are filled with it, and outlined in draw colour 2.
IMPORT("line") void line(int32_t x1, int32_t y1, int32_t x2, int32_t y2);
IMPORT("hline") void hline(int32_t x, int32_t y, uint32_t length);
IMPORT("vline") void vline(int32_t x, int32_t y, uint32_t length);
IMPORT("oval") void oval(int32_t x, int32_t y, uint32_t width, uint32_t height);
IMPORT("rect") void rect(int32_t x, int32_t y, uint32_t width, uint32_t height);

// Text has draw colour 1, and its background draw colour 2.
IMPORT("text") void text(const char *string, int32_t x, int32_t y);
IMPORT("textUtf8") void textUtf8(const char *bytes, uint32_t length, int32_t x, int32_t y);
IMPORT("textUtf16") void textUtf16(const uint16_t *units, uint32_t byteLength, int32_t x, int32_t y);

// frequency: first | second << 16, in hertz; if the second is 0 it doesn't change
// duration: sustain | release << 8 | decay << 16 | attack << 24, in frames
// volume: level | peak << 8, both up to 100
// flags: a channel, and for pulses a duty cycle of 1/8, 1/4, 1/2 or 3/4 by TONE_MODE1 to TONE_MODE4
enum { TONE_PULSE1 = 0, TONE_PULSE2 = 1, TONE_TRIANGLE = 2, TONE_NOISE = 3 };
enum { TONE_MODE1 = 0, TONE_MODE2 = 4, TONE_MODE3 = 8, TONE_MODE4 = 12 };
enum { TONE_PAN_LEFT = 16, TONE_PAN_RIGHT = 32, TONE_NOTE_MODE = 64 };
IMPORT("tone") void tone(uint32_t frequency, uint32_t duration, uint32_t volume, uint32_t flags);

// The disk has up to 1,024 bytes. Both return how many were copied; a write replaces all that was there.
IMPORT("diskr") uint32_t diskr(void *to, uint32_t size);
IMPORT("diskw") uint32_t diskw(const void *from, uint32_t size);

// Debug output, a line a call. `tracef` has %c, %d, %s and %x, each of 32 bits.
IMPORT("trace") void trace(const char *string);
IMPORT("traceUtf8") void traceUtf8(const char *bytes, uint32_t length);
IMPORT("traceUtf16") void traceUtf16(const uint16_t *units, uint32_t byteLength);
IMPORT("tracef") void tracef(const char *format, ...);
