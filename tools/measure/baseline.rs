//! The baselines that `tools/measure/measure` counts beside the encoders and `Screen::paint`: plain
//! Rust, with no proof and no care for other pixel formats than four bytes a pixel, lowest first. RRE
//! and Hextile choose as libvncserver does; a screen is a number for each pixel. Prints how many bytes
//! the update has.

const WIDTH: usize = 1920;
const HEIGHT: usize = 1080;
const HEAD: usize = 16;

#[derive(Clone, Copy, PartialEq)]
struct Color {
    r: u16,
    g: u16,
    b: u16,
}

// The same pictures as in `main.rt.in`.
fn color_at(picture: &str, x: u32, y: u32) -> Color {
    let (r, g, b) = match picture {
        "flat" => (58, 110, 165),
        "text" if is_ink(x, y) => (0, 0, 0),
        "text" => (255, 255, 255),
        "photo" => (x / 5 + y / 7, (2 * x + 3 * y) / 8, x * y / 512),
        _ => {
            let n = (y * 1920 + x).wrapping_mul(2_654_435_761);
            let n = (n ^ n >> 15).wrapping_mul(2_246_822_519);
            (n >> 24, n >> 16, n >> 8)
        }
    };
    Color {
        r: (r % 256) as u16,
        g: (g % 256) as u16,
        b: (b % 256) as u16,
    }
}

// Words of letters of five by seven pixels, with a line of them in every twenty rows.
fn is_ink(x: u32, y: u32) -> bool {
    let (column, row) = (x % 6, (y + 15) % 20);
    let dot = column * 5 + row * 3 + column * row;
    let letter = x / 6 * 7 + y / 20 * 13;
    column < 5 && row < 7 && x / 6 % 9 < 6 && (letter + dot) % 3 == 0
}

fn pixel_of(color: Color) -> u32 {
    (color.r as u32) << 16 | (color.g as u32) << 8 | color.b as u32
}

fn append_rows(rows: &[[u8; 4]], out: &mut Vec<u8>) {
    for row in rows.chunks(WIDTH) {
        out.extend_from_slice(row.as_flattened());
    }
}

// The larger of two rectangles of one colour from a pixel on: the run to the right as far down as it
// goes, and the run down as far to the right as it goes.
fn larger(pixels: &[u32], w: usize, h: usize, x: usize, y: usize) -> (usize, usize) {
    let color = pixels[y * w + x];
    let (mut wide, mut narrow, mut wide_height, mut grows, mut end) = (0, w, 0, true, y);
    while end < h && pixels[end * w + x] == color {
        let row = &pixels[end * w + x..end * w + w];
        let run = row.iter().take_while(|it| **it == color).count();
        if end == y {
            wide = run;
        }
        narrow = narrow.min(run);
        if grows && run >= wide {
            wide_height += 1;
        } else {
            grows = false;
        }
        end += 1;
    }
    if wide * wide_height > narrow * (end - y) {
        (wide, wide_height)
    } else {
        (narrow, end - y)
    }
}

// Appends subrectangles over a background while they have at most `most` bytes, and answers how
// many they are.
fn append_parts(
    pixels: &mut [u32],
    w: usize,
    h: usize,
    background: u32,
    most: usize,
    out: &mut Vec<u8>,
    write: impl Fn(u32, usize, usize, usize, usize, &mut Vec<u8>),
) -> Option<usize> {
    let (start, mut count) = (out.len(), 0);
    for y in 0..h {
        for x in 0..w {
            let color = pixels[y * w + x];
            if color != background {
                let (width, height) = larger(pixels, w, h, x, y);
                write(color, x, y, width, height, out);
                if out.len() - start > most {
                    return None;
                }
                count += 1;
                for row in y..y + height {
                    pixels[row * w + x..row * w + x + width].fill(background);
                }
            }
        }
    }
    Some(count)
}

fn write_rre_part(color: u32, x: usize, y: usize, w: usize, h: usize, out: &mut Vec<u8>) {
    out.extend_from_slice(&color.to_le_bytes());
    for number in [x, y, w, h] {
        out.extend_from_slice(&(number as u16).to_be_bytes());
    }
}

fn append_rre(pixels: &mut [u32], out: &mut Vec<u8>) -> bool {
    let background = pixels[0];
    let start = out.len();
    out.extend_from_slice(&[0; 4]);
    out.extend_from_slice(&background.to_le_bytes());
    let most = WIDTH * HEIGHT * 4 - 8;
    let parts = append_parts(pixels, WIDTH, HEIGHT, background, most, out, write_rre_part);
    let Some(count) = parts else {
        out.truncate(start);
        return false;
    };
    out[start..start + 4].copy_from_slice(&(count as u32).to_be_bytes());
    true
}

enum Kind {
    Solid(u32),
    Two(u32, u32),
    Many(u32),
}

fn kind_of(tile: &[u32]) -> Kind {
    let (one, mut other, mut ones, mut others) = (tile[0], 0, 0, 0);
    for pixel in tile {
        if *pixel == one {
            ones += 1;
            continue;
        }
        if others == 0 {
            other = *pixel;
        }
        if *pixel != other {
            return Kind::Many(if ones > others { one } else { other });
        }
        others += 1;
    }
    match others {
        0 => Kind::Solid(one),
        _ if ones > others => Kind::Two(one, other),
        _ => Kind::Two(other, one),
    }
}

#[derive(Default)]
struct Known {
    background: Option<u32>,
    foreground: Option<u32>,
}

fn position_and_size(x: usize, y: usize, w: usize, h: usize) -> [u8; 2] {
    [(x * 16 + y) as u8, ((w - 1) * 16 + h - 1) as u8]
}

fn append_tile(tile: &mut [u32], w: usize, h: usize, known: &mut Known, out: &mut Vec<u8>) {
    let start = out.len();
    let kind = kind_of(tile);
    let (background, foreground) = match kind {
        Kind::Solid(background) => (background, None),
        Kind::Two(background, foreground) => (background, Some(foreground)),
        Kind::Many(background) => (background, None),
    };
    out.push(0);
    if known.background != Some(background) {
        out[start] |= 2;
        known.background = Some(background);
        out.extend_from_slice(&background.to_le_bytes());
    }
    if foreground.is_some() && known.foreground != foreground {
        out[start] |= 4;
        known.foreground = foreground;
        out.extend_from_slice(&foreground.unwrap_or(0).to_le_bytes());
    }
    if let Kind::Solid(_) = kind {
        return;
    }
    let count = out.len();
    out.push(0);
    out[start] |= 8;
    let most = w * h * 4 - (out.len() - start);
    let mut copy = [0; 256];
    copy[..w * h].copy_from_slice(tile);
    let parts = if let Kind::Two(..) = kind {
        append_parts(tile, w, h, background, most, out, |_, x, y, w, h, out| {
            out.extend_from_slice(&position_and_size(x, y, w, h))
        })
    } else {
        out[start] |= 16;
        known.foreground = None;
        append_parts(tile, w, h, background, most, out, |color, x, y, w, h, out| {
            out.extend_from_slice(&color.to_le_bytes());
            out.extend_from_slice(&position_and_size(x, y, w, h));
        })
    };
    match parts {
        Some(parts) => out[count] = parts as u8,
        None => {
            *known = Known::default();
            out.truncate(start);
            out.push(1);
            for pixel in &copy[..w * h] {
                out.extend_from_slice(&pixel.to_le_bytes());
            }
        }
    }
}

fn append_hextile(pixels: &[u32], out: &mut Vec<u8>) {
    let mut known = Known::default();
    for y in (0..HEIGHT).step_by(16) {
        for x in (0..WIDTH).step_by(16) {
            let (w, h) = (16.min(WIDTH - x), 16.min(HEIGHT - y));
            let mut tile = [0; 256];
            for row in 0..h {
                let from = (y + row) * WIDTH + x;
                tile[row * w..row * w + w].copy_from_slice(&pixels[from..from + w]);
            }
            append_tile(&mut tile[..w * h], w, h, &mut known, out);
        }
    }
}

fn pixel_at(bytes: &[u8]) -> u32 {
    u32::from_le_bytes(bytes[..4].try_into().unwrap()) & 0xff_ffff
}

fn paint_row(bytes: &[u8], row: &mut [u32]) {
    for (pixel, bytes) in row.iter_mut().zip(bytes.chunks_exact(4)) {
        *pixel = pixel_at(bytes);
    }
}

fn paint_raw(bytes: &[u8], screen: &mut [u32]) {
    for (row, pixels) in screen.chunks_mut(WIDTH).zip(bytes.chunks(4 * WIDTH)) {
        paint_row(pixels, row);
    }
}

fn fill(screen: &mut [u32], x: usize, y: usize, w: usize, h: usize, color: u32) {
    for row in y..y + h {
        screen[row * WIDTH + x..row * WIDTH + x + w].fill(color);
    }
}

fn paint_rre(bytes: &[u8], screen: &mut [u32]) {
    screen.fill(pixel_at(&bytes[4..]));
    for part in bytes[8..].chunks_exact(12) {
        let number = |at: usize| usize::from(part[at]) * 256 + usize::from(part[at + 1]);
        fill(screen, number(4), number(6), number(8), number(10), pixel_at(part));
    }
}

// Paints a tile, and answers the bytes after it.
fn paint_tile<'a>(mut bytes: &'a [u8], x: usize, y: usize, w: usize, h: usize, colors: &mut [u32; 2], screen: &mut [u32]) -> &'a [u8] {
    let mask = bytes[0];
    bytes = &bytes[1..];
    if mask & 1 != 0 {
        for row in 0..h {
            let start = (y + row) * WIDTH + x;
            paint_row(&bytes[row * w * 4..(row + 1) * w * 4], &mut screen[start..start + w]);
        }
        return &bytes[w * h * 4..];
    }
    for (bit, color) in [2, 4].into_iter().zip(colors.iter_mut()) {
        if mask & bit != 0 {
            *color = pixel_at(bytes);
            bytes = &bytes[4..];
        }
    }
    fill(screen, x, y, w, h, colors[0]);
    if mask & 8 != 0 {
        let count = bytes[0];
        bytes = &bytes[1..];
        for _ in 0..count {
            let mut color = colors[1];
            if mask & 16 != 0 {
                color = pixel_at(bytes);
                bytes = &bytes[4..];
            }
            let (at, size) = (usize::from(bytes[0]), usize::from(bytes[1]));
            bytes = &bytes[2..];
            fill(screen, x + at / 16, y + at % 16, size / 16 + 1, size % 16 + 1, color);
        }
    }
    bytes
}

fn paint_hextile(mut bytes: &[u8], screen: &mut [u32]) {
    let mut colors = [0; 2];
    for y in (0..HEIGHT).step_by(16) {
        for x in (0..WIDTH).step_by(16) {
            bytes = paint_tile(bytes, x, y, 16.min(WIDTH - x), 16.min(HEIGHT - y), &mut colors, screen);
        }
    }
}

fn main() {
    let words: Vec<String> = std::env::args().collect();
    let (work, picture) = (words[1].as_str(), words[2].as_str());
    let mut colors = Vec::new();
    for y in 0..HEIGHT as u32 {
        for x in 0..WIDTH as u32 {
            colors.push(color_at(picture, x, y));
        }
    }
    let mut pixels: Vec<u32> = colors.iter().map(|color| pixel_of(*color)).collect();
    let rows: Vec<[u8; 4]> = pixels.iter().map(|pixel| pixel.to_le_bytes()).collect();
    let mut out = vec![0; HEAD];
    match work {
        "ready_raw" | "paint_raw" => append_rows(&rows, &mut out),
        "rre" | "ready_rre" | "paint_rre" => {
            if !append_rre(&mut pixels, &mut out) {
                append_rows(&rows, &mut out);
            }
        }
        "hextile" | "ready_hextile" | "paint_hextile" => append_hextile(&pixels, &mut out),
        "ready_copy" | "paint_copy" => out.resize(20, 0),
        _ => out.clear(),
    }
    println!("{}", out.len());
    if work.contains('_') {
        let mut screen = vec![0; WIDTH * HEIGHT];
        match work {
            "paint_raw" => paint_raw(&out[HEAD..], &mut screen),
            "paint_rre" => paint_rre(&out[HEAD..], &mut screen),
            "paint_hextile" => paint_hextile(&out[HEAD..], &mut screen),
            "paint_copy" => screen.copy_within(WIDTH.., 0),
            _ => {}
        }
        println!("{:?}", screen.last());
    }
}
