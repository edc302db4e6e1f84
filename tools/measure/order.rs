//! Two orders in which a screen may keep its pixels, by rows and by tiles of 16 by 16, with the same
//! work on both. `order rows WORK` and `order tiles WORK` do WORK ten times on 1920 by 1080 pixels, or
//! `none`, to be counted by `valgrind --tool=callgrind`: `raw`, `fill` and `copy` (up by a row) paint
//! all pixels, `parts` areas of 8 by 4; `area` reads all pixels, `areas` those of each tile in turn;
//! `same` compares two screens.
use std::hint::black_box;

const WIDTH: usize = 1920;
const HEIGHT: usize = 1080;
const SIDE: usize = 16;
const COLUMNS: usize = WIDTH.div_ceil(SIDE);
const TIMES: usize = 10;

/// Which pixels of a row have consecutive indexes.
trait Order {
    /// How many indexes a screen takes.
    const SIZE: usize;
    /// The index of a pixel, and how many pixels, from it to the right, have consecutive indexes.
    fn run(x: usize, y: usize) -> (usize, usize);
}

struct Rows;

impl Order for Rows {
    const SIZE: usize = WIDTH * HEIGHT;

    #[inline(always)]
    fn run(x: usize, y: usize) -> (usize, usize) {
        (y * WIDTH + x, WIDTH - x)
    }
}

struct Tiles;

impl Order for Tiles {
    const SIZE: usize = COLUMNS * HEIGHT.div_ceil(SIDE) * SIDE * SIDE;

    #[inline(always)]
    fn run(x: usize, y: usize) -> (usize, usize) {
        let tile = y / SIDE * COLUMNS + x / SIDE;
        (tile * SIDE * SIDE + y % SIDE * SIDE + x % SIDE, SIDE - x % SIDE)
    }
}

/// The same, with whole runs of a tile apart, whose length the compiler then knows.
#[inline(always)]
fn sized(count: usize, mut f: impl FnMut(usize)) {
    if count == SIDE { f(SIDE) } else { f(count) }
}

/// Calls `f` with the index of each run of a row's part, its first column and its length.
#[inline(always)]
fn runs<O: Order>(x: usize, y: usize, w: usize, mut f: impl FnMut(usize, usize, usize)) {
    let mut at = x;
    while at < x + w {
        let (index, most) = O::run(at, y);
        let count = most.min(x + w - at);
        sized(count, |count| f(index, at - x, count));
        at += count;
    }
}

fn paint_raw<O: Order>(pixels: &mut [u32], x: usize, y: usize, w: usize, h: usize, bytes: &[u8]) {
    for row in 0..h {
        let line = &bytes[row * w * 4..(row + 1) * w * 4];
        runs::<O>(x, y + row, w, |index, at, count| {
            let from = line[at * 4..(at + count) * 4].chunks_exact(4);
            for (pixel, b) in pixels[index..index + count].iter_mut().zip(from) {
                *pixel = u32::from_le_bytes([b[0], b[1], b[2], 0]);
            }
        });
    }
}

fn fill<O: Order>(pixels: &mut [u32], x: usize, y: usize, w: usize, h: usize, color: u32) {
    for row in 0..h {
        runs::<O>(x, y + row, w, |index, _, count| pixels[index..index + count].fill(color));
    }
}

/// The whole screen one row up.
fn copy_up<O: Order>(pixels: &mut [u32]) {
    for row in 0..HEIGHT - 1 {
        let mut at = 0;
        while at < WIDTH {
            let (from, most) = O::run(at, row + 1);
            let (to, room) = O::run(at, row);
            let count = most.min(room);
            sized(count, |count| pixels.copy_within(from..from + count, to));
            at += count;
        }
    }
}

fn read_area<O: Order>(pixels: &[u32], x: usize, y: usize, w: usize, h: usize, out: &mut Vec<u32>) {
    out.clear();
    for row in 0..h {
        runs::<O>(x, y + row, w, |index, _, count| out.extend_from_slice(&pixels[index..index + count]));
    }
}

fn work<O: Order>(name: &str) -> u32 {
    let mut pixels = vec![7u32; O::SIZE];
    let twin = vec![7u32; O::SIZE];
    let bytes = vec![9u8; WIDTH * HEIGHT * 4];
    let mut out = Vec::with_capacity(WIDTH * HEIGHT);
    let mut seen = 0;
    for _ in 0..TIMES {
        match name {
            "raw" => paint_raw::<O>(black_box(&mut pixels), 0, 0, WIDTH, HEIGHT, black_box(&bytes)),
            "fill" => fill::<O>(black_box(&mut pixels), 0, 0, WIDTH, HEIGHT, black_box(5)),
            // what RRE and Hextile paint: many small parts
            "parts" => {
                for n in 0..WIDTH * HEIGHT / 32 {
                    let (x, y) = (n * 37 % (WIDTH - 8), n * 11 % (HEIGHT - 4));
                    fill::<O>(black_box(&mut pixels), x, y, 8, 4, n as u32);
                }
            }
            "copy" => copy_up::<O>(black_box(&mut pixels)),
            "area" => read_area::<O>(black_box(&pixels), 0, 0, WIDTH, HEIGHT, black_box(&mut out)),
            "areas" => {
                for n in 0..WIDTH * HEIGHT / 256 {
                    let (x, y) = (n % COLUMNS * SIDE, n / COLUMNS % (HEIGHT / SIDE) * SIDE);
                    read_area::<O>(black_box(&pixels), x, y, SIDE, SIDE, black_box(&mut out));
                }
            }
            "same" => seen += u32::from(black_box(&pixels) == black_box(&twin)),
            _ => {}
        }
    }
    seen + pixels[3] + out.len() as u32
}

fn main() {
    let words: Vec<String> = std::env::args().collect();
    let seen = if words[1] == "tiles" { work::<Tiles>(&words[2]) } else { work::<Rows>(&words[2]) };
    println!("{seen}");
}
