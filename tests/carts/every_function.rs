//! What wasm4.rs has, each once: tests/build-examples says what has to come of it.
#![no_std]

mod wasm4;

use wasm4::*;

const SPRITE: [u8; 4] = [0x1b, 0xe4, 0x35, 0xc6];

#[no_mangle]
pub extern "C" fn update() {
    set_palette([0xe0f8cf, 0x86c06c, 0x306850, 0x123456]);
    set_draw_colors(0x1234);
    set_system_flags(SYSTEM_PRESERVE_FRAMEBUFFER);
    blit(&SPRITE, 1, 2, 4, 3, BLIT_2BPP | BLIT_FLIP_X);
    blit_sub(&SPRITE, 20, 2, 3, 2, (1, 2), 4, BLIT_2BPP);
    line(3, 20, 30, 28);
    hline(40, 30, 7);
    vline(50, 40, 9);
    oval(60, 50, 11, 13);
    rect(80, 60, 15, 17);
    unsafe { env::text(b"A\0".as_ptr(), 100, 70) }
    text("BC", 110, 80);
    text_utf16(&[0x44, 0x45], 120, 90);
    let (duration, volume) = (1 | 2 << 8 | 3 << 16 | 4 << 24, 50 | 80 << 8);
    tone(440 | 220 << 16, duration, volume, TONE_PULSE2 | TONE_MODE3 | TONE_PAN_LEFT);
    let saved = write_disk(&[1, 2, 3]);
    let read = read_disk(&mut [0; 4]);
    unsafe { env::trace(b"a\0".as_ptr()) }
    trace("bc");
    trace_utf16(&[0x64, 0x65]);
    let arguments = [saved, read, 255, b"f\0".as_ptr() as u32, u32::from(b'g')];
    unsafe { env::tracef(b"%d %d %x %s%c\0".as_ptr(), arguments.as_ptr()) }
    let (x, y, buttons) = mouse();
    trace(format(format_args!("{} {} {} {}", gamepad(3), x, y, buttons)));
}
