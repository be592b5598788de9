//! A drawing board of 20 by 20 cells: the left mouse button fills a cell, the right one empties it. The disk
//! keeps the board. `examples/rust/build examples/rust/board.rs board.wasm` builds it.
#![no_std]

mod wasm4;

use wasm4::Global;

const CELLS: usize = 20;
const SIDE: u32 = 8;

/// A bit for each cell, a word for each row.
#[derive(Clone, Copy)]
struct Board([u32; CELLS]);

static BOARD: Global<Board> = Global::new(Board([0; CELLS]));

impl Board {
    fn load() -> Self {
        let mut bytes = [0; 4 * CELLS];
        wasm4::read_disk(&mut bytes);
        let mut rows = [0; CELLS];
        for (row, word) in rows.iter_mut().zip(bytes.chunks_exact(4)) {
            *row = u32::from_le_bytes([word[0], word[1], word[2], word[3]]);
        }
        Board(rows)
    }

    fn save(&self) {
        let mut bytes = [0; 4 * CELLS];
        for (row, word) in self.0.iter().zip(bytes.chunks_exact_mut(4)) {
            word.copy_from_slice(&row.to_le_bytes());
        }
        wasm4::write_disk(&bytes);
    }

    /// The row and the bit of the cell at a pixel, if one is there.
    fn cell(&mut self, x: i16, y: i16) -> Option<(&mut u32, u32)> {
        let column = u32::try_from(x).ok()? / SIDE;
        let row = self.0.get_mut(usize::try_from(y).ok()? / SIDE as usize)?;
        if column < CELLS as u32 { Some((row, 1 << column)) } else { None }
    }

    /// Fills or empties the cell at a pixel, and says whether that changed it.
    fn put(&mut self, x: i16, y: i16, fill: bool) -> bool {
        self.cell(x, y).map_or(false, |(row, bit)| {
            let before = *row;
            *row = if fill { before | bit } else { before & !bit };
            *row != before
        })
    }

    fn draw(&self) {
        for (y, row) in self.0.iter().enumerate() {
            for x in (0..CELLS as u32).filter(|x| row >> x & 1 == 1) {
                wasm4::rect((x * SIDE) as i32, y as i32 * SIDE as i32, SIDE, SIDE);
            }
        }
    }
}

#[no_mangle]
pub extern "C" fn start() {
    BOARD.set(Board::load());
}

#[no_mangle]
pub extern "C" fn update() {
    let mut board = BOARD.get();
    let (x, y, buttons) = wasm4::mouse();
    let fill = buttons & wasm4::MOUSE_LEFT != 0;
    if (fill || buttons & wasm4::MOUSE_RIGHT != 0) && board.put(x, y, fill) {
        board.save();
        wasm4::tone(if fill { 440 } else { 220 }, 4, 30, 0);
    }
    wasm4::set_draw_colors(0x43);
    board.draw();
    wasm4::set_draw_colors(4);
    wasm4::text("BOARD", 4, 4);
    BOARD.set(board);
}
