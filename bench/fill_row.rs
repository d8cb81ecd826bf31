//! The same work as `fill_row.txt`, in plain Rust: a loop over the pixels of a row by the formula of each channel.

#[inline(never)]
fn fill_row(row: &mut [u16], fg: u16, opa: u8) {
    let m = (i32::from(opa) + 4) / 8;
    if m == 32 {
        row.fill(fg);
        return;
    }
    let channel = |bg: i32, fg: i32| bg + ((fg - bg) * m >> 5);
    for pixel in row {
        let bg = *pixel;
        let red = channel(i32::from(bg >> 11), i32::from(fg >> 11));
        let green = channel(i32::from(bg >> 5 & 63), i32::from(fg >> 5 & 63));
        let blue = channel(i32::from(bg & 31), i32::from(fg & 31));
        *pixel = (red << 11 | green << 5 | blue) as u16;
    }
}

fn main() {
    let opa = if std::env::args().len() > 1 { 128 } else { 255 };
    let mut row = [0x1234u16; 320];
    for i in 0..1_000_000u32 {
        fill_row(&mut row, (i % 65536) as u16, opa);
    }
    println!("{}", row.iter().fold(0u32, |sum, pixel| sum.wrapping_add(u32::from(*pixel))));
}
