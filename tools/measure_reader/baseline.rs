//! The baseline that `tools/measure_reader/measure_reader` counts beside `ServerReader::feed`: plain
//! Rust, with no proof, which takes a host's stream in pieces, judges each field once it is whole,
//! and keeps a message's bytes and its rectangles' offsets; and beside `Screen::paint`, on a number
//! for each pixel. It does the same works as `main.rt.in`.

use std::{env, fs, process};

const SCREEN: usize = 4096;
const PIECE: usize = 65_536;
const LIMIT: usize = 67_108_864;
const TEXT_LIMIT: usize = 65_536;

struct Message {
    bytes: Vec<u8>,
    rectangles: Vec<Rectangle>,
}

#[derive(Clone, Copy, Default)]
struct Rectangle {
    area: [usize; 4],
    encoding: u32,
    start: usize,
    end: usize,
}

// A tile of a rectangle: its first pixel, and what was named before it.
#[derive(Clone, Copy)]
struct Tile {
    x: usize,
    y: usize,
    background: bool,
    foreground: bool,
}

enum Field {
    Type,
    UpdateHead,
    MapHead,
    TextHead,
    Text(usize),
    Over(usize),
    Header,
    Pixels(usize),
    Source,
    Count,
    Part { more: u32 },
    Mask(Tile),
    RawTile(Tile),
    TileHead { tile: Tile, mask: u8 },
    TilePart { tile: Tile, colored: bool, more: u8 },
}

struct Reader {
    bytes: Vec<u8>,
    rectangles: Vec<Rectangle>,
    field: Field,
    start: usize,
    current: Rectangle,
    others: u16,
}

fn u16_at(bytes: &[u8], at: usize) -> usize {
    usize::from(u16::from_be_bytes([bytes[at], bytes[at + 1]]))
}

fn u32_at(bytes: &[u8], at: usize) -> u32 {
    u32::from_be_bytes([bytes[at], bytes[at + 1], bytes[at + 2], bytes[at + 3]])
}

impl Reader {
    fn new() -> Reader {
        Reader {
            bytes: Vec::new(),
            rectangles: Vec::new(),
            field: Field::Type,
            start: 0,
            current: Rectangle::default(),
            others: 0,
        }
    }

    fn tile_size(&self, tile: Tile) -> (usize, usize) {
        let [_, _, w, h] = self.current.area;
        (16.min(w - tile.x), 16.min(h - tile.y))
    }

    fn wants(&self) -> usize {
        match self.field {
            Field::Type | Field::Mask(_) => 1,
            Field::UpdateHead => 3,
            Field::MapHead => 5,
            Field::TextHead => 7,
            Field::Text(length) | Field::Over(length) | Field::Pixels(length) => length,
            Field::Header => 12,
            Field::Source => 4,
            Field::Count => 8,
            Field::Part { .. } => 12,
            Field::RawTile(tile) => {
                let (w, h) = self.tile_size(tile);
                4 * w * h
            }
            Field::TileHead { mask, .. } => {
                4 * usize::from(mask >> 1 & 1) + 4 * usize::from(mask >> 2 & 1) + usize::from(mask >> 3 & 1)
            }
            Field::TilePart { colored: true, .. } => 6,
            Field::TilePart { .. } => 2,
        }
    }

    fn next_header(&mut self) -> Option<Field> {
        if self.others == 0 {
            return None;
        }
        self.others -= 1;
        Some(Field::Header)
    }

    fn rectangle_ends(&mut self) -> Option<Field> {
        self.current.end = self.bytes.len();
        self.rectangles.push(self.current);
        self.next_header()
    }

    fn header(&mut self) -> Result<Option<Field>, ()> {
        let field = &self.bytes[self.start..];
        let area = [u16_at(field, 0), u16_at(field, 2), u16_at(field, 4), u16_at(field, 6)];
        let encoding = u32_at(field, 8);
        if area[0] + area[2] > SCREEN || area[1] + area[3] > SCREEN {
            return Err(());
        }
        self.current = Rectangle { area, encoding, start: self.bytes.len(), end: 0 };
        let empty = area[2] == 0 || area[3] == 0;
        Ok(match encoding {
            0 | 5 if empty => self.rectangle_ends(),
            0 => Some(Field::Pixels(4 * area[2] * area[3])),
            1 => Some(Field::Source),
            2 => Some(Field::Count),
            5 => Some(Field::Mask(Tile { x: 0, y: 0, background: false, foreground: false })),
            _ => return Err(()),
        })
    }

    fn next_part(&mut self, count: u32) -> Option<Field> {
        match count {
            0 => self.rectangle_ends(),
            _ => Some(Field::Part { more: count - 1 }),
        }
    }

    fn next_tile(&mut self, mut tile: Tile) -> Option<Field> {
        tile.x += 16;
        if tile.x >= self.current.area[2] {
            tile.x = 0;
            tile.y += 16;
            if tile.y >= self.current.area[3] {
                return self.rectangle_ends();
            }
        }
        Some(Field::Mask(tile))
    }

    fn next_tile_part(&mut self, tile: Tile, colored: bool, count: u8) -> Option<Field> {
        match count {
            0 => self.next_tile(tile),
            _ => Some(Field::TilePart { tile, colored, more: count - 1 }),
        }
    }

    fn mask(&mut self, mut tile: Tile) -> Result<Option<Field>, ()> {
        let mask = self.bytes[self.start];
        if mask & 1 != 0 {
            return Ok(Some(Field::RawTile(tile)));
        }
        tile.background |= mask & 2 != 0;
        tile.foreground |= mask & 4 != 0;
        let colored = mask & 16 != 0;
        if mask >= 32 || mask & 20 == 20 || !tile.background || (mask & 8 != 0 && !colored && !tile.foreground) {
            return Err(());
        }
        if mask & 14 == 0 {
            return Ok(self.next_tile(tile));
        }
        Ok(Some(Field::TileHead { tile, mask }))
    }

    // Judges the field, which is whole. None comes next if the message is whole.
    fn step(&mut self) -> Result<Option<Field>, ()> {
        let field = &self.bytes[self.start..];
        Ok(match self.field {
            Field::Type => match field[0] {
                0 => Some(Field::UpdateHead),
                1 => Some(Field::MapHead),
                2 => None,
                3 => Some(Field::TextHead),
                _ => return Err(()),
            },
            Field::UpdateHead => {
                self.others = u16_at(field, 1) as u16;
                self.next_header()
            }
            Field::MapHead => Some(Field::Over(6 * u16_at(field, 3))),
            Field::TextHead => match u32_at(field, 3) as usize {
                0 => None,
                length if length > TEXT_LIMIT => Some(Field::Over(length)),
                length => Some(Field::Text(length)),
            },
            Field::Text(_) | Field::Over(_) => None,
            Field::Header => return self.header(),
            Field::Pixels(_) => self.rectangle_ends(),
            Field::Source => {
                let [_, _, w, h] = self.current.area;
                if u16_at(field, 0) + w > SCREEN || u16_at(field, 2) + h > SCREEN {
                    return Err(());
                }
                self.rectangle_ends()
            }
            Field::Count => {
                let count = u32_at(field, 0);
                self.next_part(count)
            }
            Field::Part { more } => {
                let [_, _, w, h] = self.current.area;
                if u16_at(field, 4) + u16_at(field, 8) > w || u16_at(field, 6) + u16_at(field, 10) > h {
                    return Err(());
                }
                self.next_part(more)
            }
            Field::Mask(tile) => return self.mask(tile),
            Field::RawTile(tile) => self.next_tile(tile),
            Field::TileHead { tile, mask } => {
                let count = if mask & 8 != 0 { field[field.len() - 1] } else { 0 };
                self.next_tile_part(tile, mask & 16 != 0, count)
            }
            Field::TilePart { tile, colored, more } => {
                let (w, h) = self.tile_size(tile);
                let (at, size) = (field[field.len() - 2], field[field.len() - 1]);
                if usize::from(at >> 4) + usize::from(size >> 4) + 1 > w || usize::from(at & 15) + usize::from(size & 15) + 1 > h {
                    return Err(());
                }
                self.next_tile_part(tile, colored, more)
            }
        })
    }

    fn feed(&mut self, mut piece: &[u8], out: &mut Vec<Message>) -> Result<(), ()> {
        while !piece.is_empty() {
            if let Field::Over(left) = self.field {
                let passed = left.min(piece.len());
                piece = &piece[passed..];
                if passed == left {
                    *self = Reader::new();
                } else {
                    self.field = Field::Over(left - passed);
                }
                continue;
            }
            let end = self.start + self.wants();
            let room = end.min(LIMIT) - self.bytes.len();
            if room == 0 {
                return Err(());
            }
            let (taken, rest) = piece.split_at(room.min(piece.len()));
            self.bytes.extend_from_slice(taken);
            piece = rest;
            if self.bytes.len() < end {
                return Ok(());
            }
            match self.step()? {
                Some(next) => {
                    self.field = next;
                    self.start = end;
                }
                None => {
                    let whole = std::mem::replace(self, Reader::new());
                    out.push(Message { bytes: whole.bytes, rectangles: whole.rectangles });
                }
            }
        }
        Ok(())
    }
}

fn number(n: usize, bytes: &mut Vec<u8>) {
    bytes.extend_from_slice(&(n as u16).to_be_bytes());
}

fn head(w: usize, h: usize, encoding: u8) -> Vec<u8> {
    let mut bytes = vec![0, 0, 0, 1, 0, 0, 0, 0];
    number(w, &mut bytes);
    number(h, &mut bytes);
    bytes.extend_from_slice(&[0, 0, 0, encoding]);
    bytes
}

fn rre() -> Vec<u8> {
    let mut bytes = head(1920, 1080, 2);
    bytes.extend_from_slice(&[0, 10, 170, 170, 1, 2, 3, 0]);
    for n in 0..699_050 {
        bytes.extend_from_slice(&[7, n as u8, 9, 0]);
        number(n % 1900, &mut bytes);
        number(n % 1060, &mut bytes);
        number(1 + n % 20, &mut bytes);
        number(1 + n % 20, &mut bytes);
    }
    bytes
}

fn hextile(columns: usize, rows: usize, mask: u8, parts: u8, colored: bool) -> Vec<u8> {
    let mut bytes = head(16 * columns, 16 * rows, 5);
    for _ in 0..columns * rows {
        bytes.extend_from_slice(&[mask, 1, 2, 3, 0]);
        if !colored {
            bytes.extend_from_slice(&[4, 5, 6, 0]);
        }
        bytes.push(parts);
        for n in 0..parts {
            if colored {
                bytes.extend_from_slice(&[7, n, 9, 0]);
            }
            bytes.extend_from_slice(&[n, (15 - n / 16) % 4 * 16 + (15 - n % 16) % 4]);
        }
    }
    bytes
}

fn data(work: &str) -> Vec<u8> {
    match work {
        "rre" => rre(),
        "coloured" => hextile(120, 68, 2 + 8 + 16, 170, true),
        "two" => hextile(128, 127, 2 + 4 + 8, 255, false),
        file => fs::read(file).unwrap(),
    }
}

fn pixel_at(bytes: &[u8]) -> u32 {
    u32::from_le_bytes(bytes[..4].try_into().unwrap()) & 0xff_ffff
}

fn paint_raw(bytes: &[u8], x: usize, y: usize, w: usize, screen: &mut [u32]) {
    for (row, pixels) in bytes.chunks_exact(4 * w).enumerate() {
        let start = (y + row) * SCREEN + x;
        for (pixel, bytes) in screen[start..start + w].iter_mut().zip(pixels.chunks_exact(4)) {
            *pixel = pixel_at(bytes);
        }
    }
}

fn fill(screen: &mut [u32], x: usize, y: usize, w: usize, h: usize, color: u32) {
    for row in y..y + h {
        screen[row * SCREEN + x..row * SCREEN + x + w].fill(color);
    }
}

fn copy(from: [usize; 2], [x, y, w, h]: [usize; 4], screen: &mut [u32]) {
    let mut copy_row = |row: usize| {
        let start = (from[1] + row) * SCREEN + from[0];
        screen.copy_within(start..start + w, (y + row) * SCREEN + x);
    };
    if y <= from[1] {
        (0..h).for_each(&mut copy_row);
    } else {
        (0..h).rev().for_each(&mut copy_row);
    }
}

fn paint_rre(bytes: &[u8], [x, y, w, h]: [usize; 4], screen: &mut [u32]) {
    fill(screen, x, y, w, h, pixel_at(&bytes[4..]));
    for part in bytes[8..].chunks_exact(12) {
        let at = |offset| u16_at(part, offset);
        fill(screen, x + at(4), y + at(6), at(8), at(10), pixel_at(part));
    }
}

// Paints a tile, and answers the bytes after it.
fn paint_tile<'a>(mut bytes: &'a [u8], [x, y, w, h]: [usize; 4], colors: &mut [u32; 2], screen: &mut [u32]) -> &'a [u8] {
    let mask = bytes[0];
    bytes = &bytes[1..];
    if mask & 1 != 0 {
        paint_raw(&bytes[..4 * w * h], x, y, w, screen);
        return &bytes[4 * w * h..];
    }
    for (bit, color) in [2, 4].into_iter().zip(colors.iter_mut()) {
        if mask & bit != 0 {
            *color = pixel_at(bytes);
            bytes = &bytes[4..];
        }
    }
    fill(screen, x, y, w, h, colors[0]);
    if mask & 8 != 0 {
        let count = bytes[0];
        bytes = &bytes[1..];
        for _ in 0..count {
            let mut color = colors[1];
            if mask & 16 != 0 {
                color = pixel_at(bytes);
                bytes = &bytes[4..];
            }
            let (at, size) = (usize::from(bytes[0]), usize::from(bytes[1]));
            bytes = &bytes[2..];
            fill(screen, x + at / 16, y + at % 16, size / 16 + 1, size % 16 + 1, color);
        }
    }
    bytes
}

fn paint_hextile(mut bytes: &[u8], [x, y, w, h]: [usize; 4], screen: &mut [u32]) {
    let mut colors = [0; 2];
    for top in (0..h).step_by(16) {
        for left in (0..w).step_by(16) {
            let tile = [x + left, y + top, 16.min(w - left), 16.min(h - top)];
            bytes = paint_tile(bytes, tile, &mut colors, screen);
        }
    }
}

fn paint(message: &Message, screen: &mut [u32]) {
    for it in &message.rectangles {
        let bytes = &message.bytes[it.start..it.end];
        let [x, y, w, _] = it.area;
        match it.encoding {
            0 if w > 0 => paint_raw(bytes, x, y, w, screen),
            0 => {}
            1 => copy([u16_at(bytes, 0), u16_at(bytes, 2)], it.area, screen),
            2 => paint_rre(bytes, it.area, screen),
            _ => paint_hextile(bytes, it.area, screen),
        }
    }
}

// A sum over the first pixels of a screen that shows the messages, or is black.
fn sum_of_screen(messages: &[Message], paints: bool) -> u32 {
    let mut screen = vec![0; SCREEN * SCREEN];
    if paints {
        for message in messages {
            paint(message, &mut screen);
        }
    }
    let pixels = screen.chunks(SCREEN).take(240).flat_map(|row| &row[..320]);
    pixels.fold(0, |sum: u32, pixel| sum.wrapping_mul(31).wrapping_add(*pixel))
}

fn main() {
    let words: Vec<String> = env::args().collect();
    let stream = data(&words[2]);
    let length = words[3].parse().unwrap_or(PIECE);
    let mut reader = Reader::new();
    let mut messages = Vec::new();
    println!("{}", stream.len());
    let how = words[1].as_str();
    if how != "ready" {
        for piece in stream.chunks(length) {
            if reader.feed(piece, &mut messages).is_err() {
                process::exit(1);
            }
        }
    }
    let bytes: usize = messages.iter().map(|it| it.bytes.len()).sum();
    let ends: usize = messages.iter().flat_map(|it| &it.rectangles).map(|it| it.start + it.end + it.area[0] + it.encoding as usize).sum();
    println!("messages {} {} {}", messages.len(), bytes, ends);
    if how == "paint" || how == "shown" {
        println!("screen {}", sum_of_screen(&messages, how == "paint"));
    }
}
