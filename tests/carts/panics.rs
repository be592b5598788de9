//! It panics where gamepad 1 is no index: tests/build-examples wants the message traced.
#![no_std]

mod wasm4;

const NAMES: [&str; 3] = ["none", "one", "two"];

#[no_mangle]
pub extern "C" fn update() {
    wasm4::trace(NAMES[usize::from(wasm4::gamepad(0))]);
}
