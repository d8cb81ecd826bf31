//! The same work as `drawing.txt`, in plain Rust: `drawing WORK TURNS`. Each item is clipped once, and drawn by loops
//! over the pixels of its rows, each channel mixed by its formula.

const WORDS: &str = "The quick brown fox jumps over a lazy dog; 0123456789 and some more words. ";
const WIDTH: i32 = 320;
const HEIGHT: i32 = 240;

#[derive(Clone, Copy)]
struct Area {
    x1: i32,
    y1: i32,
    x2: i32,
    y2: i32,
}

impl Area {
    fn at(x: i32, y: i32, width: i32, height: i32) -> Area {
        Area { x1: x, y1: y, x2: x + width - 1, y2: y + height - 1 }
    }

    fn meet(self, other: Area) -> Area {
        Area {
            x1: self.x1.max(other.x1),
            y1: self.y1.max(other.y1),
            x2: self.x2.min(other.x2),
            y2: self.y2.min(other.y2),
        }
    }

    fn is_empty(self) -> bool {
        self.x2 < self.x1 || self.y2 < self.y1
    }
}

struct Buffer {
    area: Area,
    pixels: Vec<u16>,
}

impl Buffer {
    fn row_mut(&mut self, y: i32, x1: i32, x2: i32) -> &mut [u16] {
        let width = self.area.x2 - self.area.x1 + 1;
        let start = ((y - self.area.y1) * width + (x1 - self.area.x1)) as usize;
        &mut self.pixels[start..start + (x2 - x1 + 1) as usize]
    }
}

#[inline(always)]
fn mix_parts(fg: u16, bg: u16, m: i32) -> u16 {
    let channel = |bg: i32, fg: i32| bg + ((fg - bg) * m >> 5);
    let red = channel(i32::from(bg >> 11), i32::from(fg >> 11));
    let green = channel(i32::from(bg >> 5 & 63), i32::from(fg >> 5 & 63));
    let blue = channel(i32::from(bg & 31), i32::from(fg & 31));
    (red << 11 | green << 5 | blue) as u16
}

fn parts_of(opa: u8) -> i32 {
    (i32::from(opa) + 4) / 8
}

fn fill_row(row: &mut [u16], fg: u16, opa: u8) {
    let m = parts_of(opa);
    if m == 32 {
        row.fill(fg);
        return;
    }
    for pixel in row {
        *pixel = mix_parts(fg, *pixel, m);
    }
}

#[inline(never)]
fn fill(buf: &mut Buffer, clip: Area, area: Area, fg: u16, opa: u8) {
    let part = buf.area.meet(clip).meet(area);
    if part.is_empty() {
        return;
    }
    for y in part.y1..=part.y2 {
        fill_row(buf.row_mut(y, part.x1, part.x2), fg, opa);
    }
}

#[inline(never)]
fn ring(buf: &mut Buffer, clip: Area, area: Area, width: i32, fg: u16, opa: u8) {
    let (x, y) = (area.x1 + width, area.y1 + width);
    let (u, v) = (area.x2 - width, area.y2 - width);
    fill(buf, clip, Area { y2: y - 1, ..area }, fg, opa);
    fill(buf, clip, Area { y1: v + 1, ..area }, fg, opa);
    fill(buf, clip, Area { y1: y, x2: x - 1, y2: v, ..area }, fg, opa);
    fill(buf, clip, Area { x1: u + 1, y1: y, y2: v, ..area }, fg, opa);
}

/// The lines of a text that is set in a width: each a start and an end.
fn lines(text: &str, width: i32) -> Vec<(usize, usize)> {
    let mut lines = Vec::new();
    let (mut start, mut space, mut at) = (0, None, 0);
    let bytes = text.as_bytes();
    while at < bytes.len() {
        if bytes[at] == b'\n' {
            lines.push((start, at));
            start = at + 1;
            space = None;
        } else if at > start && (at - start + 1) as i32 * 6 > width {
            let end = space.unwrap_or(at);
            lines.push((start, end));
            start = end;
            at = end;
            space = None;
            continue;
        } else if bytes[at] == b' ' {
            space = Some(at + 1);
        }
        at += 1;
    }
    lines.push((start, bytes.len()));
    lines
}

/// One glyph of the built-in font, clipped once.
#[inline(never)]
fn letter(buf: &mut Buffer, part: Area, x: i32, y: i32, byte: u8, fg: u16, opa: u8) {
    if !(32..127).contains(&byte) {
        return;
    }
    let seen = part.meet(Area::at(x, y, 5, 7));
    if seen.is_empty() {
        return;
    }
    let columns = &COLUMNS[5 * (usize::from(byte) - 32)..][..5];
    let m = parts_of(opa);
    for line in seen.y1..=seen.y2 {
        let row = buf.row_mut(line, seen.x1, seen.x2);
        for (i, pixel) in row.iter_mut().enumerate() {
            if columns[(seen.x1 - x) as usize + i] >> (line - y) & 1 == 1 {
                *pixel = mix_parts(fg, *pixel, m);
            }
        }
    }
}

#[inline(never)]
fn ink(buf: &mut Buffer, clip: Area, area: Area, text: &str, fg: u16, opa: u8) {
    let part = buf.area.meet(clip).meet(area);
    if part.is_empty() {
        return;
    }
    let mut y = area.y1;
    for (start, end) in lines(text, area.x2 - area.x1 + 1) {
        if y <= part.y2 && y + 8 > part.y1 {
            let mut x = area.x1;
            for byte in text[start..end].bytes() {
                letter(buf, part, x, y, byte, fg, opa);
                x += 6;
            }
        }
        y += 12;
    }
}

#[derive(Clone, Copy)]
enum Format {
    Rgb565,
    Rgb565Alpha,
    Alpha,
}

struct Image {
    format: Format,
    width: i32,
    height: i32,
    bytes: Vec<u8>,
}

fn color_of(texel: &[u8]) -> u16 {
    u16::from(texel[0]) << 8 | u16::from(texel[1])
}

fn combine(a: u8, b: u8) -> u8 {
    (u32::from(a) * u32::from(b) / 255) as u8
}

#[inline(never)]
fn picture(buf: &mut Buffer, clip: Area, area: Area, image: &Image, recolor: u16, opa: u8) {
    let whole = Area::at(area.x1, area.y1, image.width, image.height);
    let part = buf.area.meet(clip).meet(area).meet(whole);
    if part.is_empty() {
        return;
    }
    let size = match image.format {
        Format::Rgb565 => 2,
        Format::Rgb565Alpha => 3,
        Format::Alpha => 1,
    };
    for y in part.y1..=part.y2 {
        let from = ((y - area.y1) * image.width + (part.x1 - area.x1)) as usize * size;
        let texels = &image.bytes[from..];
        let row = buf.row_mut(y, part.x1, part.x2);
        match image.format {
            Format::Rgb565 => {
                let m = parts_of(opa);
                for (pixel, texel) in row.iter_mut().zip(texels.chunks_exact(2)) {
                    *pixel = mix_parts(color_of(texel), *pixel, m);
                }
            }
            Format::Rgb565Alpha => {
                for (pixel, texel) in row.iter_mut().zip(texels.chunks_exact(3)) {
                    let m = parts_of(combine(texel[2], opa));
                    *pixel = mix_parts(color_of(texel), *pixel, m);
                }
            }
            Format::Alpha => {
                for (pixel, alpha) in row.iter_mut().zip(texels) {
                    *pixel = mix_parts(recolor, *pixel, parts_of(combine(*alpha, opa)));
                }
            }
        }
    }
}

#[inline(never)]
fn mask_row(row: &mut [u16], bits: &[u8], first: usize, fg: u16, opa: u8) {
    let m = parts_of(opa);
    for (i, pixel) in row.iter_mut().enumerate() {
        let k = first + i;
        if bits[k / 8] >> (7 - k % 8) & 1 == 1 {
            *pixel = mix_parts(fg, *pixel, m);
        }
    }
}

fn made(i: usize) -> u8 {
    (i % 65_536 * 37 % 256) as u8
}

fn image(format: Format, size: usize) -> Image {
    let mut bytes = Vec::new();
    for y in 0..240 {
        bytes.extend((0..256 * size).map(|i| made(i + y * 11)));
    }
    Image { format, width: 256, height: 240, bytes }
}

fn main() {
    let numbers: Vec<u32> = std::env::args().skip(1).map(|word| word.parse().unwrap_or(0)).collect();
    let (work, turns) = (numbers[0], numbers[1]);
    let area = Area::at(0, 0, WIDTH, HEIGHT);
    let mut buf = Buffer { area, pixels: vec![0; (WIDTH * HEIGHT) as usize] };
    let text: String = WORDS.chars().cycle().take(1000).collect();
    let images = [image(Format::Rgb565, 2), image(Format::Rgb565Alpha, 3), image(Format::Alpha, 1)];
    let mut row = vec![0; WIDTH as usize];
    let bits: Vec<u8> = (0..40).map(made).collect();
    for i in 0..turns {
        let color = (i % 65_536) as u16;
        match work {
            0 => fill(&mut buf, area, area, color, 255),
            1 => fill(&mut buf, area, area, color, 128),
            2 => ring(&mut buf, area, area, 10, color, 128),
            3 => ink(&mut buf, area, area, &text, color, 255),
            4..=6 => picture(&mut buf, area, area, &images[work as usize - 4], color, 255),
            _ => {
                for _ in 0..HEIGHT {
                    mask_row(&mut row, &bits, 0, color, 255);
                }
            }
        }
    }
    let pixels = if work == 7 { row } else { buf.pixels };
    println!("{}", pixels.iter().fold(0u32, |sum, pixel| sum.wrapping_add(u32::from(*pixel))));
}

const COLUMNS: [u8; 475] = [
    0x00, 0x00, 0x00, 0x00, 0x00, 0x00, 0x00, 0x5F, 0x00, 0x00, 0x00, 0x07, 0x00, 0x07, 0x00, 0x14,
    0x7F, 0x14, 0x7F, 0x14, 0x24, 0x2A, 0x7F, 0x2A, 0x12, 0x23, 0x13, 0x08, 0x64, 0x62, 0x36, 0x49,
    0x55, 0x22, 0x50, 0x00, 0x05, 0x03, 0x00, 0x00, 0x00, 0x1C, 0x22, 0x41, 0x00, 0x00, 0x41, 0x22,
    0x1C, 0x00, 0x14, 0x08, 0x3E, 0x08, 0x14, 0x08, 0x08, 0x3E, 0x08, 0x08, 0x00, 0x50, 0x30, 0x00,
    0x00, 0x08, 0x08, 0x08, 0x08, 0x08, 0x00, 0x60, 0x60, 0x00, 0x00, 0x20, 0x10, 0x08, 0x04, 0x02,
    0x3E, 0x51, 0x49, 0x45, 0x3E, 0x00, 0x42, 0x7F, 0x40, 0x00, 0x42, 0x61, 0x51, 0x49, 0x46, 0x21,
    0x41, 0x45, 0x4B, 0x31, 0x18, 0x14, 0x12, 0x7F, 0x10, 0x27, 0x45, 0x45, 0x45, 0x39, 0x3C, 0x4A,
    0x49, 0x49, 0x30, 0x01, 0x71, 0x09, 0x05, 0x03, 0x36, 0x49, 0x49, 0x49, 0x36, 0x06, 0x49, 0x49,
    0x29, 0x1E, 0x00, 0x36, 0x36, 0x00, 0x00, 0x00, 0x56, 0x36, 0x00, 0x00, 0x08, 0x14, 0x22, 0x41,
    0x00, 0x14, 0x14, 0x14, 0x14, 0x14, 0x00, 0x41, 0x22, 0x14, 0x08, 0x02, 0x01, 0x51, 0x09, 0x06,
    0x32, 0x49, 0x79, 0x41, 0x3E, 0x7E, 0x11, 0x11, 0x11, 0x7E, 0x7F, 0x49, 0x49, 0x49, 0x36, 0x3E,
    0x41, 0x41, 0x41, 0x22, 0x7F, 0x41, 0x41, 0x22, 0x1C, 0x7F, 0x49, 0x49, 0x49, 0x41, 0x7F, 0x09,
    0x09, 0x09, 0x01, 0x3E, 0x41, 0x49, 0x49, 0x7A, 0x7F, 0x08, 0x08, 0x08, 0x7F, 0x00, 0x41, 0x7F,
    0x41, 0x00, 0x20, 0x40, 0x41, 0x3F, 0x01, 0x7F, 0x08, 0x14, 0x22, 0x41, 0x7F, 0x40, 0x40, 0x40,
    0x40, 0x7F, 0x02, 0x0C, 0x02, 0x7F, 0x7F, 0x04, 0x08, 0x10, 0x7F, 0x3E, 0x41, 0x41, 0x41, 0x3E,
    0x7F, 0x09, 0x09, 0x09, 0x06, 0x3E, 0x41, 0x51, 0x21, 0x5E, 0x7F, 0x09, 0x19, 0x29, 0x46, 0x46,
    0x49, 0x49, 0x49, 0x31, 0x01, 0x01, 0x7F, 0x01, 0x01, 0x3F, 0x40, 0x40, 0x40, 0x3F, 0x1F, 0x20,
    0x40, 0x20, 0x1F, 0x3F, 0x40, 0x38, 0x40, 0x3F, 0x63, 0x14, 0x08, 0x14, 0x63, 0x07, 0x08, 0x70,
    0x08, 0x07, 0x61, 0x51, 0x49, 0x45, 0x43, 0x00, 0x7F, 0x41, 0x41, 0x00, 0x02, 0x04, 0x08, 0x10,
    0x20, 0x00, 0x41, 0x41, 0x7F, 0x00, 0x04, 0x02, 0x01, 0x02, 0x04, 0x40, 0x40, 0x40, 0x40, 0x40,
    0x00, 0x01, 0x02, 0x04, 0x00, 0x20, 0x54, 0x54, 0x54, 0x78, 0x7F, 0x48, 0x44, 0x44, 0x38, 0x38,
    0x44, 0x44, 0x44, 0x20, 0x38, 0x44, 0x44, 0x48, 0x7F, 0x38, 0x54, 0x54, 0x54, 0x18, 0x08, 0x7E,
    0x09, 0x01, 0x02, 0x0C, 0x52, 0x52, 0x52, 0x3E, 0x7F, 0x08, 0x04, 0x04, 0x78, 0x00, 0x44, 0x7D,
    0x40, 0x00, 0x20, 0x40, 0x44, 0x3D, 0x00, 0x7F, 0x10, 0x28, 0x44, 0x00, 0x00, 0x41, 0x7F, 0x40,
    0x00, 0x7C, 0x04, 0x18, 0x04, 0x78, 0x7C, 0x08, 0x04, 0x04, 0x78, 0x38, 0x44, 0x44, 0x44, 0x38,
    0x7C, 0x14, 0x14, 0x14, 0x08, 0x08, 0x14, 0x14, 0x18, 0x7C, 0x7C, 0x08, 0x04, 0x04, 0x08, 0x48,
    0x54, 0x54, 0x54, 0x20, 0x04, 0x3F, 0x44, 0x40, 0x20, 0x3C, 0x40, 0x40, 0x20, 0x7C, 0x1C, 0x20,
    0x40, 0x20, 0x1C, 0x3C, 0x40, 0x30, 0x40, 0x3C, 0x44, 0x28, 0x10, 0x28, 0x44, 0x0C, 0x50, 0x50,
    0x50, 0x3C, 0x44, 0x64, 0x54, 0x4C, 0x44, 0x00, 0x08, 0x36, 0x41, 0x00, 0x00, 0x00, 0x7F, 0x00,
    0x00, 0x00, 0x41, 0x36, 0x08, 0x00, 0x10, 0x08, 0x08, 0x10, 0x08,
];
