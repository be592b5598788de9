//! Apples fall, and the arrow keys move a basket to catch them. After every fourth catch they fall faster; a miss
//! ends the round. The disk keeps the best score.
//! `examples/rust/build examples/rust/apples.rs apples.wasm` builds it.
#![no_std]

mod wasm4;

use wasm4::*;

const SIZE: i32 = 8;
const BASKET_WIDTH: i32 = 16;
const BASKET_Y: i32 = 144;
const TOP: i32 = 16;

const APPLE: [u8; 8] = [
    0b00001100,
    0b00010000,
    0b01111110,
    0b11011111,
    0b10111111,
    0b11111111,
    0b01111110,
    0b00111100,
];

#[derive(Clone, Copy)]
struct Game {
    apple_x: i32,
    apple_y: i32,
    basket_x: i32,
    score: u32,
    best: u32,
    random: u32,
}

static GAME: Global<Game> =
    Global::new(Game { apple_x: 76, apple_y: TOP, basket_x: 72, score: 0, best: 0, random: 0 });

impl Game {
    fn catch_apple(&mut self) {
        self.score += 1;
        tone(400 + 20 * self.score, 8 << 8, 40, TONE_PULSE1);
    }

    fn end_round(&mut self) {
        tone(300 | 80 << 16, 30 << 8, 60, TONE_TRIANGLE); // from 300 hertz down to 80, in half a second
        if self.score > self.best {
            self.best = self.score;
            write_disk(&self.best.to_le_bytes());
            trace(format(format_args!("best score {}", self.best)));
        }
        self.score = 0;
    }

    fn play(&mut self, pad: u8) {
        if pad & BUTTON_LEFT != 0 && self.basket_x > 0 {
            self.basket_x -= 2;
        }
        if pad & BUTTON_RIGHT != 0 && self.basket_x < SCREEN_SIZE - BASKET_WIDTH {
            self.basket_x += 2;
        }
        // What is pressed decides where apples fall.
        self.random = self.random.wrapping_mul(1664525).wrapping_add(1013904223 + u32::from(pad));
        self.apple_y += 1 + self.score as i32 / 4;
        if self.apple_y + SIZE <= BASKET_Y {
            return;
        }
        if self.apple_x + SIZE > self.basket_x && self.apple_x < self.basket_x + BASKET_WIDTH {
            self.catch_apple();
        } else {
            self.end_round();
        }
        self.apple_x = (self.random >> 16) as i32 % (SCREEN_SIZE - SIZE + 1);
        self.apple_y = TOP;
    }

    fn draw(&self) {
        set_draw_colors(0x42); // filled in the palette's colour 2, outlined in colour 4
        rect(self.basket_x, BASKET_Y, BASKET_WIDTH as u32, SIZE as u32);
        set_draw_colors(0x40); // the sprite's 0 bits aren't painted, its 1 bits in colour 4
        blit(&APPLE, self.apple_x, self.apple_y, SIZE as u32, SIZE as u32, BLIT_1BPP);
        set_draw_colors(0x04);
        text(format(format_args!("SCORE {:3}", self.score)), 4, 4);
        text(format(format_args!("BEST {:3}", self.best)), 92, 4);
    }
}

#[no_mangle]
pub extern "C" fn start() {
    let mut bytes = [0; 4];
    read_disk(&mut bytes);
    GAME.set(Game { best: u32::from_le_bytes(bytes), ..GAME.get() });
}

#[no_mangle]
pub extern "C" fn update() {
    let mut game = GAME.get();
    game.play(gamepad(0));
    game.draw();
    GAME.set(game);
}
