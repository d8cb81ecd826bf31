//! The same work as the program `scene`, in plain Rust: what its speed is measured against. Nothing is proved here.
use std::io::{self, BufRead, BufWriter, Write};

const WHITE: u16 = 0xFFFF;

struct Panel {
    width: usize,
    pixels: Vec<u16>,
}

impl Panel {
    fn flush(&mut self, from: usize, pixels: &[u16]) {
        let start = from * self.width;
        self.pixels[start..start + pixels.len()].copy_from_slice(pixels);
    }

    fn present(&self, out: &mut impl Write) -> io::Result<()> {
        let height = self.pixels.len() / self.width;
        out.write_all(format!("P6\n{} {}\n255\n", self.width, height).as_bytes())?;
        let mut row = Vec::with_capacity(self.width * 3);
        for line in self.pixels.chunks(self.width) {
            row.clear();
            for pixel in line {
                let (red, green, blue) = (pixel >> 11, pixel >> 5 & 63, pixel & 31);
                row.push((red * 8 + red / 4) as u8);
                row.push((green * 4 + green / 16) as u8);
                row.push((blue * 8 + blue / 4) as u8);
            }
            out.write_all(&row)?;
        }
        Ok(())
    }
}

fn main() -> io::Result<()> {
    let words: Vec<usize> = std::env::args().skip(1).map(|w| w.parse().unwrap()).collect();
    let (width, height, lines) = (words[0], words[1], words[2]);
    let mut panel = Panel { width, pixels: vec![0xA5A5; width * height] };
    let mut buffer = vec![0u16; width * lines];
    let mut out = BufWriter::with_capacity(1 << 16, io::stdout().lock());
    let mut log = io::stderr().lock();
    let mut frame = 0;
    for (number, line) in io::stdin().lock().lines().enumerate() {
        if line? != "frame" {
            continue;
        }
        frame += 1;
        let mut y = 0;
        while y < height {
            let rows = lines.min(height - y);
            let slice = &mut buffer[..width * rows];
            slice.fill(0);
            slice.fill(WHITE);
            panel.flush(y, slice);
            y += rows;
        }
        panel.present(&mut out)?;
        out.flush()?;
        writeln!(log, "{} frame {} done", number + 1, frame)?;
    }
    Ok(())
}
