// A ball that the arrow keys push and that bounces off the walls. Positions are in sixteenths of a pixel: whole
// numbers do what floats would. `examples/c/build examples/c/ball.c ball.wasm` builds it.
#include "wasm4.h"

enum { SIDE = 10, UNIT = 16, FLOOR = (160 - SIDE) * UNIT };

typedef struct {
    int32_t at, speed;
} Axis;

static Axis across = {40 * UNIT, 20}, down = {20 * UNIT, 0};
static uint32_t bounces;

// One frame on; whether a wall was met. A wall takes an eighth of the speed.
static int move(Axis *axis, int32_t push) {
    axis->speed += push;
    axis->at += axis->speed;
    if (axis->at >= 0 && axis->at <= FLOOR)
        return 0;
    axis->at = axis->at < 0 ? 0 : FLOOR;
    axis->speed = -(axis->speed - axis->speed / 8);
    return 1;
}

static void bounce(void) {
    bounces += 1;
    tone(200 + 40 * (bounces % 8), 8 << 8, 40, TONE_TRIANGLE);
    diskw(&bounces, sizeof bounces);
}

EXPORT("start") void start(void) {
    diskr(&bounces, sizeof bounces);
    tracef("the ball rolls; it has bounced %d times", bounces);
}

EXPORT("update") void update(void) {
    uint8_t pad = GAMEPADS[0];
    int32_t push = !!(pad & BUTTON_RIGHT) - !!(pad & BUTTON_LEFT);
    int32_t lift = pad & BUTTON_UP ? 3 : 0;
    int met = move(&across, push);
    met |= move(&down, 1 - lift);
    if (met)
        bounce();
    DRAW_COLORS = 0x0043;
    oval(across.at / UNIT, down.at / UNIT, SIDE, SIDE);
    DRAW_COLORS = 0x0004;
    text("BALL", 4, 4);
}
