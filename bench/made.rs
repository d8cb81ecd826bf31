//! What `scene WIDTH HEIGHT LINES make=K` draws, in plain Rust: `made WIDTH HEIGHT LINES K`. It keeps a scene of rectangles and what is owed of
//! the panel, paints that in slices of so many lines, and writes the same frames and the same summary. Its scene can refuse nothing.
use std::fs::File;
use std::io::{self, Write};
use std::os::fd::AsFd;

const WHITE: u16 = 0xFFFF;
const OBJECTS: usize = 50;
const CHANGES: usize = 1_000;
const MOST_AREAS: usize = 32;

/// Pixels from a left column and a top row up to a right column and a bottom row, which are not among them.
#[derive(Clone, Copy)]
struct Area {
    left: usize,
    top: usize,
    right: usize,
    bottom: usize,
}

impl Area {
    fn width(self) -> usize {
        self.right - self.left
    }

    fn height(self) -> usize {
        self.bottom - self.top
    }

    fn size(self) -> usize {
        self.width() * self.height()
    }

    /// The pixels that both have, where there are any.
    fn meet(self, other: Area) -> Option<Area> {
        let both = Area {
            left: self.left.max(other.left),
            top: self.top.max(other.top),
            right: self.right.min(other.right),
            bottom: self.bottom.min(other.bottom),
        };
        (both.left < both.right && both.top < both.bottom).then_some(both)
    }

    /// The smallest area around both.
    fn join(self, other: Area) -> Area {
        Area {
            left: self.left.min(other.left),
            top: self.top.min(other.top),
            right: self.right.max(other.right),
            bottom: self.bottom.max(other.bottom),
        }
    }

    fn holds(self, other: Area) -> bool {
        self.left <= other.left && self.top <= other.top && other.right <= self.right && other.bottom <= self.bottom
    }

    /// Whether one area around both is less to paint than the two are.
    fn is_better_joined(self, other: Area) -> bool {
        self.meet(other).is_some() && self.join(other).size() < self.size() + other.size()
    }
}

/// The areas of the panel that no longer show the scene.
struct Damage {
    panel: Area,
    areas: Vec<Area>,
}

impl Damage {
    fn add(&mut self, area: Area) {
        let Some(mut area) = area.meet(self.panel) else { return };
        if self.areas.iter().any(|listed| listed.holds(area)) {
            return;
        }
        while let Some(at) = self.areas.iter().position(|listed| listed.is_better_joined(area)) {
            area = self.areas.swap_remove(at).join(area);
        }
        if self.areas.len() == MOST_AREAS {
            self.areas.clear();
            area = self.panel;
        }
        self.areas.push(area);
    }
}

/// A new object has this size, at the top left, and is seen through.
#[derive(Clone)]
struct Object {
    left: usize,
    top: usize,
    width: usize,
    height: usize,
    color: u16,
    opacity: u8,
}

impl Object {
    fn new() -> Object {
        Object { left: 0, top: 0, width: 100, height: 50, color: WHITE, opacity: 0 }
    }

    fn area(&self) -> Area {
        Area { left: self.left, top: self.top, right: self.left + self.width, bottom: self.top + self.height }
    }
}

/// The objects by their numbers, and these numbers in the order in which the objects are painted.
struct Scene {
    objects: Vec<Object>,
    order: Vec<usize>,
    damage: Damage,
}

impl Scene {
    fn add(&mut self) {
        let object = Object::new();
        self.damage.add(object.area());
        self.order.push(self.objects.len());
        self.objects.push(object);
    }

    /// Changes an object. Where it was seen and where it is seen now must be painted.
    fn change(&mut self, number: usize, change: impl FnOnce(&mut Object)) {
        let object = &mut self.objects[number];
        self.damage.add(object.area());
        change(object);
        self.damage.add(object.area());
    }

    fn set_size(&mut self, number: usize, width: usize, height: usize) {
        self.change(number, |object| (object.width, object.height) = (width, height));
    }

    fn set_place(&mut self, number: usize, left: usize, top: usize) {
        self.change(number, |object| (object.left, object.top) = (left, top));
    }

    fn set_color(&mut self, number: usize, color: u16) {
        self.change(number, |object| object.color = color);
    }

    fn set_opacity(&mut self, number: usize, opacity: u8) {
        self.change(number, |object| object.opacity = opacity);
    }

    fn bring_to_front(&mut self, number: usize) {
        self.order.retain(|&other| other != number);
        self.order.push(number);
        self.damage.add(self.objects[number].area());
    }

    /// Paints a slice: the white screen, and all objects over it. What an opaque object hides is painted too, as the program does.
    fn paint(&self, slice: Area, pixels: &mut [u16]) {
        pixels.fill(WHITE);
        for &number in &self.order {
            let object = &self.objects[number];
            if let Some(part) = object.area().meet(slice) {
                fill(pixels, slice, part, object.color, object.opacity);
            }
        }
    }
}

/// Fills a part of a slice.
fn fill(pixels: &mut [u16], slice: Area, part: Area, color: u16, opacity: u8) {
    let weight = (u16::from(opacity) + 4) / 8;
    if weight == 0 {
        return;
    }
    let columns = part.left - slice.left..part.right - slice.left;
    let rows = pixels.chunks_exact_mut(slice.width()).skip(part.top - slice.top).take(part.height());
    for row in rows {
        let row = &mut row[columns.clone()];
        if weight == 32 {
            row.fill(color);
        } else {
            mix_row(row, color, weight);
        }
    }
}

/// Mixes a colour over a row, by its share of 32. No sum passes 16 bits, so that eight pixels fit one register.
fn mix_row(row: &mut [u16], color: u16, weight: u16) {
    let kept = 32 - weight;
    let [red, green, blue] = channels(color).map(|channel| channel * weight);
    for pixel in row {
        let [old_red, old_green, old_blue] = channels(*pixel);
        let new_red = (old_red * kept + red) >> 5;
        let new_green = (old_green * kept + green) >> 5;
        let new_blue = (old_blue * kept + blue) >> 5;
        *pixel = new_red << 11 | new_green << 5 | new_blue;
    }
}

fn channels(pixel: u16) -> [u16; 3] {
    [pixel >> 11, pixel >> 5 & 63, pixel & 31]
}

fn color_of(red: usize, green: usize, blue: usize) -> u16 {
    (red / 8 << 11 | green / 4 << 5 | blue / 8) as u16
}

/// Turns pixels to bytes of red, green and blue.
fn turn_to_bytes(pixels: &[u16], bytes: &mut [u8]) {
    for (bytes, &pixel) in bytes.chunks_exact_mut(3).zip(pixels) {
        let [red, green, blue] = channels(pixel);
        bytes[0] = (red << 3 | red >> 2) as u8;
        bytes[1] = (green << 2 | green >> 4) as u8;
        bytes[2] = (blue << 3 | blue >> 2) as u8;
    }
}

/// The panel, the buffer of a slice, and the bytes of as many lines of a frame.
struct Display {
    area: Area,
    pixels: Vec<u16>,
    buffer: Vec<u16>,
    bytes: Vec<u8>,
    frames: u32,
}

impl Display {
    fn new(area: Area, lines: usize) -> Display {
        let most = area.width() * lines;
        Display { area, pixels: vec![0; area.size()], buffer: vec![0; most], bytes: vec![0; 3 * most], frames: 0 }
    }

    /// Paints what is owed of the scene, and nothing is owed then.
    fn refresh(&mut self, scene: &mut Scene) {
        while let Some(area) = scene.damage.areas.pop() {
            let lines = self.buffer.len() / area.width();
            for top in (area.top..area.bottom).step_by(lines) {
                let slice = Area { top, bottom: area.bottom.min(top + lines), ..area };
                scene.paint(slice, &mut self.buffer[..slice.size()]);
                self.take(slice);
            }
        }
    }

    /// Takes the slice that was painted.
    fn take(&mut self, slice: Area) {
        let columns = slice.left..slice.right;
        let rows = self.pixels.chunks_exact_mut(self.area.width()).skip(slice.top);
        for (row, painted) in rows.zip(self.buffer[..slice.size()].chunks_exact(slice.width())) {
            row[columns.clone()].copy_from_slice(painted);
        }
    }

    /// Writes what the panel shows, a few lines at a time, so that their bytes stay near.
    fn present(&mut self, out: &mut impl Write) -> io::Result<()> {
        let heading = format!("P6\n{} {}\n255\n", self.area.width(), self.area.height());
        out.write_all(heading.as_bytes())?;
        for pixels in self.pixels.chunks(self.buffer.len()) {
            let bytes = &mut self.bytes[..3 * pixels.len()];
            turn_to_bytes(pixels, bytes);
            out.write_all(bytes)?;
        }
        self.frames += 1;
        Ok(())
    }

    /// The sum of a scene's picture, which is painted anew for it in slices, as the program does.
    fn sum(&mut self, scene: &Scene) -> u16 {
        let lines = self.buffer.len() / self.area.width();
        let mut sum = 0_u16;
        for top in (0..self.area.bottom).step_by(lines) {
            let slice = Area { top, bottom: self.area.bottom.min(top + lines), ..self.area };
            let painted = &mut self.buffer[..slice.size()];
            scene.paint(slice, painted);
            sum = painted.iter().fold(sum, |sum, &pixel| sum.wrapping_add(pixel));
        }
        sum
    }
}

/// The numbers that the script draws.
struct Draws(u32);

impl Draws {
    fn below(&mut self, end: usize) -> usize {
        self.0 = self.0.wrapping_mul(1_103_515_245).wrapping_add(12_345) & 0x7FFF_FFFF;
        (self.0 >> 16) as usize % end
    }
}

/// A run of the made script.
struct Run<W: Write> {
    draws: Draws,
    scene: Scene,
    display: Display,
    out: W,
    lines: u32,
}

impl<W: Write> Run<W> {
    fn new(width: usize, height: usize, lines: usize, start: u32, out: W) -> Run<W> {
        let panel = Area { left: 0, top: 0, right: width, bottom: height };
        let mut areas = Vec::with_capacity(MOST_AREAS);
        areas.push(panel);
        let damage = Damage { panel, areas };
        let scene = Scene { objects: Vec::with_capacity(OBJECTS), order: Vec::with_capacity(OBJECTS), damage };
        Run { draws: Draws(start), scene, display: Display::new(panel, lines), out, lines: 0 }
    }

    fn make(&mut self) -> io::Result<()> {
        for number in 0..OBJECTS {
            self.make_object(number);
        }
        self.frame()?;
        for count in 1..=CHANGES {
            self.change_object();
            if count % 100 == 0 {
                self.frame()?;
            }
        }
        Ok(())
    }

    fn make_object(&mut self, number: usize) {
        self.scene.add();
        let (width, height) = self.draw_size();
        self.scene.set_size(number, width, height);
        let (left, top) = self.draw_place();
        self.scene.set_place(number, left, top);
        let color = color_of(self.draws.below(256), self.draws.below(256), self.draws.below(256));
        self.scene.set_color(number, color);
        self.scene.set_opacity(number, self.draws.below(256) as u8);
        self.lines += 5;
    }

    fn change_object(&mut self) {
        let number = self.draws.below(OBJECTS);
        match self.draws.below(4) {
            0 => {
                let (left, top) = self.draw_place();
                self.scene.set_place(number, left, top);
            }
            1 => {
                let (width, height) = self.draw_size();
                self.scene.set_size(number, width, height);
            }
            2 => self.scene.set_opacity(number, self.draws.below(256) as u8),
            _ => self.scene.bring_to_front(number),
        }
        self.lines += 1;
    }

    fn draw_place(&mut self) -> (usize, usize) {
        let panel = self.display.area;
        (self.draws.below(panel.width()), self.draws.below(panel.height()))
    }

    fn draw_size(&mut self) -> (usize, usize) {
        let (width, height) = self.draw_place();
        (1 + width, 1 + height)
    }

    fn frame(&mut self) -> io::Result<()> {
        self.lines += 1;
        self.display.refresh(&mut self.scene);
        self.display.present(&mut self.out)
    }

    fn summary(&mut self, start: u32) -> String {
        let sum = self.display.sum(&self.scene);
        let (lines, frames) = (self.lines, self.display.frames);
        format!("made {start} lines {lines} refused 0 frames {frames} faults 0 sum {sum}\n")
    }
}

fn main() -> io::Result<()> {
    let words: Vec<usize> = std::env::args().skip(1).map(|word| word.parse().unwrap()).collect();
    let (width, height, lines, start) = (words[0], words[1], words[2], words[3] as u32);
    // As a file, since standard output itself looks for line ends in all that is written.
    let out = File::from(io::stdout().as_fd().try_clone_to_owned()?);
    let mut run = Run::new(width, height, lines, start, out);
    run.make()?;
    io::stderr().write_all(run.summary(start).as_bytes())
}
