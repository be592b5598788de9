// Apples fall, and the arrow keys move a basket to catch them. After every fourth catch they fall faster; a miss
// ends the round. The disk keeps the best score.
// `examples/c/build examples/c/apples.c apples.wasm` builds it.
#include "wasm4.h"

enum { SIZE = 8, BASKET_WIDTH = 16, BASKET_Y = 144, TOP = 16 };

static const uint8_t apple[SIZE] = {
    0b00001100,
    0b00010000,
    0b01111110,
    0b11011111,
    0b10111111,
    0b11111111,
    0b01111110,
    0b00111100,
};

static int32_t apple_x = 76, apple_y = TOP, basket_x = 72;
static uint32_t score, best, random;

static void catch_apple(void) {
    score += 1;
    tone(400 + 20 * score, 8 << 8, 40, TONE_PULSE1);
}

static void end_round(void) {
    tone(300 | 80 << 16, 30 << 8, 60, TONE_TRIANGLE); // from 300 hertz down to 80, in half a second
    if (score > best) {
        best = score;
        diskw(&best, sizeof best);
        tracef("best score %d", best);
    }
    score = 0;
}

static void play(uint8_t pad) {
    if (pad & BUTTON_LEFT && basket_x > 0)
        basket_x -= 2;
    if (pad & BUTTON_RIGHT && basket_x < SCREEN_SIZE - BASKET_WIDTH)
        basket_x += 2;
    random = random * 1664525 + 1013904223 + pad; // what is pressed decides where apples fall
    apple_y += 1 + score / 4;
    if (apple_y + SIZE <= BASKET_Y)
        return;
    if (apple_x + SIZE > basket_x && apple_x < basket_x + BASKET_WIDTH)
        catch_apple();
    else
        end_round();
    apple_x = (random >> 16) % (SCREEN_SIZE - SIZE + 1);
    apple_y = TOP;
}

// A number in decimal, its last digit at x.
static void draw_number(uint32_t number, int32_t x, int32_t y) {
    char digit[] = {'0' + number % 10, 0};
    text(digit, x, y);
    if (number >= 10)
        draw_number(number / 10, x - FONT_SIZE, y);
}

EXPORT("start") void start(void) {
    diskr(&best, sizeof best);
}

EXPORT("update") void update(void) {
    play(GAMEPADS[0]);
    DRAW_COLORS = 0x42; // filled in the palette's colour 2, outlined in colour 4
    rect(basket_x, BASKET_Y, BASKET_WIDTH, SIZE);
    DRAW_COLORS = 0x40; // the sprite's 0 bits aren't painted, its 1 bits in colour 4
    blit(apple, apple_x, apple_y, SIZE, SIZE, BLIT_1BPP);
    DRAW_COLORS = 0x04;
    text("SCORE", 4, 4);
    draw_number(score, 68, 4);
    text("BEST", 92, 4);
    draw_number(best, 148, 4);
}
