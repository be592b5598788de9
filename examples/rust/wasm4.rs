//! The WASM-4 console as a cart sees it, without floats: the memory map and the 17 functions of
//! https://wasm4.org/docs/reference/memory and functions. Copy this file and `build` beside your own game.
#![allow(dead_code, clippy::manual_dangling_ptr, clippy::too_many_arguments)]

use core::cell::Cell;
use core::fmt;

pub const SCREEN_SIZE: i32 = 160;
pub const FONT_SIZE: i32 = 8;

// The memory map. The console writes gamepads and mouse before each frame.
pub const PALETTE: *mut u32 = 0x04 as *mut u32; // four colours, each 0xRRGGBB
pub const DRAW_COLORS: *mut u16 = 0x14 as *mut u16; // four hexadecimal digits, draw colour 1 the last
pub const GAMEPADS: *const u8 = 0x16 as *const u8; // of four players: sums of BUTTON_..
pub const MOUSE_X: *const i16 = 0x1a as *const i16;
pub const MOUSE_Y: *const i16 = 0x1c as *const i16;
pub const MOUSE_BUTTONS: *const u8 = 0x1e as *const u8; // a sum of MOUSE_..
pub const SYSTEM_FLAGS: *mut u8 = 0x1f as *mut u8; // a sum of SYSTEM_..
pub const NETPLAY: *const u8 = 0x20 as *const u8; // w4 leaves it 0
pub const FRAMEBUFFER: *mut u8 = 0xa0 as *mut u8; // 6,400 bytes, four pixels each, the first lowest

pub const BUTTON_1: u8 = 1;
pub const BUTTON_2: u8 = 2;
pub const BUTTON_LEFT: u8 = 16;
pub const BUTTON_RIGHT: u8 = 32;
pub const BUTTON_UP: u8 = 64;
pub const BUTTON_DOWN: u8 = 128;
pub const MOUSE_LEFT: u8 = 1;
pub const MOUSE_RIGHT: u8 = 2;
pub const MOUSE_MIDDLE: u8 = 4;
pub const SYSTEM_PRESERVE_FRAMEBUFFER: u8 = 1;
pub const SYSTEM_HIDE_GAMEPAD_OVERLAY: u8 = 2;
pub const BLIT_1BPP: u32 = 0;
pub const BLIT_2BPP: u32 = 1;
pub const BLIT_FLIP_X: u32 = 2;
pub const BLIT_FLIP_Y: u32 = 4;
pub const BLIT_ROTATE: u32 = 8;
pub const TONE_PULSE1: u32 = 0;
pub const TONE_PULSE2: u32 = 1;
pub const TONE_TRIANGLE: u32 = 2;
pub const TONE_NOISE: u32 = 3;
pub const TONE_MODE1: u32 = 0;
pub const TONE_MODE2: u32 = 4;
pub const TONE_MODE3: u32 = 8;
pub const TONE_MODE4: u32 = 12;
pub const TONE_PAN_LEFT: u32 = 16;
pub const TONE_PAN_RIGHT: u32 = 32;
pub const TONE_NOTE_MODE: u32 = 64;

/// The functions as they are imported. `text`, `trace` and `tracef` take bytes up to a 0.
pub mod env {
    #[link(wasm_import_module = "env")]
    extern "C" {
        pub fn blit(sprite: *const u8, x: i32, y: i32, width: u32, height: u32, flags: u32);
        #[link_name = "blitSub"]
        pub fn blit_sub(
            sprite: *const u8, x: i32, y: i32, width: u32, height: u32,
            source_x: u32, source_y: u32, stride: u32, flags: u32,
        );
        pub fn line(x1: i32, y1: i32, x2: i32, y2: i32);
        pub fn hline(x: i32, y: i32, length: u32);
        pub fn vline(x: i32, y: i32, length: u32);
        pub fn oval(x: i32, y: i32, width: u32, height: u32);
        pub fn rect(x: i32, y: i32, width: u32, height: u32);
        pub fn text(string: *const u8, x: i32, y: i32);
        #[link_name = "textUtf8"]
        pub fn text_utf8(bytes: *const u8, length: u32, x: i32, y: i32);
        #[link_name = "textUtf16"]
        pub fn text_utf16(units: *const u16, byte_length: u32, x: i32, y: i32);
        pub fn tone(frequency: u32, duration: u32, volume: u32, flags: u32);
        pub fn diskr(to: *mut u8, size: u32) -> u32;
        pub fn diskw(from: *const u8, size: u32) -> u32;
        pub fn trace(string: *const u8);
        #[link_name = "traceUtf8"]
        pub fn trace_utf8(bytes: *const u8, length: u32);
        #[link_name = "traceUtf16"]
        pub fn trace_utf16(units: *const u16, byte_length: u32);
        /// `arguments` has the arguments of %c, %d, %s and %x one after another, each of 32 bits.
        pub fn tracef(format: *const u8, arguments: *const u32);
    }
}

/// Four colours, each 0xRRGGBB.
pub fn set_palette(colors: [u32; 4]) {
    for (index, color) in colors.into_iter().enumerate() {
        unsafe { PALETTE.add(index).write_volatile(color) }
    }
}

/// Four hexadecimal digits, draw colour 1 the last: 0 isn't painted, 1 to 4 are the palette's colours.
pub fn set_draw_colors(colors: u16) {
    unsafe { DRAW_COLORS.write_volatile(colors) }
}

pub fn set_system_flags(flags: u8) {
    unsafe { SYSTEM_FLAGS.write_volatile(flags) }
}

/// What a player, 0 to 3, holds: a sum of `BUTTON_..`.
pub fn gamepad(player: usize) -> u8 {
    unsafe { GAMEPADS.add(player & 3).read_volatile() }
}

/// Where the mouse is, and its buttons.
pub fn mouse() -> (i16, i16, u8) {
    unsafe { (MOUSE_X.read_volatile(), MOUSE_Y.read_volatile(), MOUSE_BUTTONS.read_volatile()) }
}

/// Paints a sprite: one bit a pixel, or two, the leftmost pixel highest; pixel 0 has draw colour 1.
pub fn blit(sprite: &[u8], x: i32, y: i32, width: u32, height: u32, flags: u32) {
    unsafe { env::blit(sprite.as_ptr(), x, y, width, height, flags) }
}

/// Paints a part of a sprite of `stride` pixels a row, from the pixel `source` on.
pub fn blit_sub(
    sprite: &[u8], x: i32, y: i32, width: u32, height: u32, source: (u32, u32), stride: u32, flags: u32,
) {
    unsafe { env::blit_sub(sprite.as_ptr(), x, y, width, height, source.0, source.1, stride, flags) }
}

pub fn line(x1: i32, y1: i32, x2: i32, y2: i32) {
    unsafe { env::line(x1, y1, x2, y2) }
}

pub fn hline(x: i32, y: i32, length: u32) {
    unsafe { env::hline(x, y, length) }
}

pub fn vline(x: i32, y: i32, length: u32) {
    unsafe { env::vline(x, y, length) }
}

/// Filled with draw colour 1, outlined in draw colour 2.
pub fn oval(x: i32, y: i32, width: u32, height: u32) {
    unsafe { env::oval(x, y, width, height) }
}

/// Filled with draw colour 1, outlined in draw colour 2.
pub fn rect(x: i32, y: i32, width: u32, height: u32) {
    unsafe { env::rect(x, y, width, height) }
}

/// Text in draw colour 1, on draw colour 2: a `&str`, bytes, or what `format` gives.
pub fn text(string: impl AsRef<[u8]>, x: i32, y: i32) {
    let bytes = string.as_ref();
    unsafe { env::text_utf8(bytes.as_ptr(), bytes.len() as u32, x, y) }
}

pub fn text_utf16(units: &[u16], x: i32, y: i32) {
    unsafe { env::text_utf16(units.as_ptr(), 2 * units.len() as u32, x, y) }
}

/// The frequency is first | second << 16, in hertz; the duration sustain | release << 8 | decay << 16 |
/// attack << 24, in frames; the volume level | peak << 8, both up to 100; the flags a sum of `TONE_..`.
pub fn tone(frequency: u32, duration: u32, volume: u32, flags: u32) {
    unsafe { env::tone(frequency, duration, volume, flags) }
}

/// Reads the disk into these bytes, and returns how many were copied.
pub fn read_disk(bytes: &mut [u8]) -> u32 {
    unsafe { env::diskr(bytes.as_mut_ptr(), bytes.len() as u32) }
}

/// Replaces the disk by these bytes, at most 1,024, and returns how many were copied.
pub fn write_disk(bytes: &[u8]) -> u32 {
    unsafe { env::diskw(bytes.as_ptr(), bytes.len() as u32) }
}

/// Debug output, a line a call: a `&str`, bytes, or what `format` gives.
pub fn trace(string: impl AsRef<[u8]>) {
    let bytes = string.as_ref();
    unsafe { env::trace_utf8(bytes.as_ptr(), bytes.len() as u32) }
}

pub fn trace_utf16(units: &[u16]) {
    unsafe { env::trace_utf16(units.as_ptr(), 2 * units.len() as u32) }
}

/// What `format` gives: at most 128 bytes, as many as a traced line may have.
pub struct Formatted {
    bytes: [u8; 128],
    length: usize,
}

impl fmt::Write for Formatted {
    fn write_str(&mut self, string: &str) -> fmt::Result {
        for (to, from) in self.bytes[self.length..].iter_mut().zip(string.bytes()) {
            *to = from;
            self.length += 1;
        }
        Ok(())
    }
}

impl AsRef<[u8]> for Formatted {
    fn as_ref(&self) -> &[u8] {
        &self.bytes[..self.length]
    }
}

/// Text with numbers in it: `text(format(format_args!("SCORE {}", score)), 4, 4)`.
pub fn format(arguments: fmt::Arguments) -> Formatted {
    let mut formatted = Formatted { bytes: [0; 128], length: 0 };
    let _ = fmt::write(&mut formatted, arguments); // when it is full it takes no more, which is no error
    formatted
}

/// What a cart keeps from frame to frame: `static GAME: Global<Game> = Global::new(..)`.
pub struct Global<T>(Cell<T>);

// A cart has one thread.
unsafe impl<T> Sync for Global<T> {}

impl<T: Copy> Global<T> {
    pub const fn new(value: T) -> Self {
        Global(Cell::new(value))
    }

    pub fn get(&self) -> T {
        self.0.get()
    }

    pub fn set(&self, value: T) {
        self.0.set(value)
    }
}

/// Traces what went wrong and where, and traps.
#[panic_handler]
fn panic(information: &core::panic::PanicInfo) -> ! {
    trace(format(format_args!("{}", information)));
    core::arch::wasm32::unreachable()
}
