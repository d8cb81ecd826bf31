//! The same work as `lines.txt`, in plain Rust: `lines FONT TURNS`. A glyph is found in a hash map by its font and
//! its character.

use std::collections::HashMap;

const WORDS: &str = "the quick brown fox jumps over a lazy dog and some more words\n";

#[derive(Clone, Copy)]
struct Glyph {
    advance: u8,
}

struct Font {
    name: u8,
    advance: u8,
}

struct Fonts {
    fonts: Vec<Font>,
    glyphs: HashMap<(u8, char), Glyph>,
}

impl Fonts {
    fn advance(&self, font: u8, c: char) -> u8 {
        if font == 0 {
            return 6;
        }
        let Some(slot) = self.fonts.iter().find(|slot| slot.name == font) else {
            return 6;
        };
        self.glyphs.get(&(font, c)).map_or(slot.advance, |glyph| glyph.advance)
    }
}

/// A line: its start, its end, and the width of its run.
struct Line {
    start: usize,
    end: usize,
    width: u32,
}

struct Lines<'a> {
    fonts: &'a Fonts,
    font: u8,
    letter: u32,
    most: u32,
    text: &'a str,
    at: Option<usize>,
}

impl Iterator for Lines<'_> {
    type Item = Line;

    fn next(&mut self) -> Option<Line> {
        let start = self.at?;
        let mut width = 0;
        let mut space = None;
        for (i, c) in self.text[start..].char_indices() {
            let at = start + i;
            if c == '\n' {
                self.at = Some(at + 1);
                return Some(Line { start, end: at, width });
            }
            let gap = if i == 0 { 0 } else { self.letter };
            let wider = width + gap + u32::from(self.fonts.advance(self.font, c));
            if i > 0 && wider > self.most {
                let (end, width) = space.unwrap_or((at, width));
                self.at = Some(end);
                return Some(Line { start, end, width });
            }
            width = wider;
            if c == ' ' {
                space = Some((at + 1, width));
            }
        }
        self.at = None;
        Some(Line { start, end: self.text.len(), width })
    }
}

fn main() {
    let numbers: Vec<u32> = std::env::args().skip(1).map(|word| word.parse().unwrap()).collect();
    let mut glyphs = HashMap::new();
    for code in ' '..='~' {
        glyphs.insert((1, code), Glyph { advance: 4 + (code as u32 % 4) as u8 });
    }
    let fonts = Fonts { fonts: vec![Font { name: 1, advance: 6 }], glyphs };
    let text: String = WORDS.chars().cycle().take(1000).collect();
    let mut sum = 0u64;
    for turn in 0..numbers[1] {
        let most = 100 + turn % 64;
        let lines = Lines { fonts: &fonts, font: (numbers[0] % 2) as u8, letter: 1, most, text: &text, at: Some(0) };
        for line in lines {
            sum = sum.wrapping_add((line.end - line.start + line.start) as u64 + u64::from(line.width));
        }
    }
    println!("{sum}");
}
