//! The same work as `damage.txt`, in plain Rust: `damage WORK TURNS`. Areas stand in a vector with room for 32,
//! and a panel is a vector of pixels. Each slice is painted black into a buffer and copied to the panel.

const WIDTH: i32 = 320;
const HEIGHT: i32 = 240;
const LIMIT: u32 = 7_680;

#[derive(Clone, Copy)]
struct Area {
    x1: i32,
    y1: i32,
    x2: i32,
    y2: i32,
}

impl Area {
    fn at(x: i32, y: i32, width: i32, height: i32) -> Area {
        Area { x1: x, y1: y, x2: x + width - 1, y2: y + height - 1 }
    }

    fn is_empty(self) -> bool {
        self.x2 < self.x1 || self.y2 < self.y1
    }

    fn width(self) -> u32 {
        (self.x2 - self.x1 + 1).max(0) as u32
    }

    fn height(self) -> u32 {
        (self.y2 - self.y1 + 1).max(0) as u32
    }

    fn size(self) -> u64 {
        u64::from(self.width()) * u64::from(self.height())
    }

    fn meet(self, other: Area) -> Area {
        Area {
            x1: self.x1.max(other.x1),
            y1: self.y1.max(other.y1),
            x2: self.x2.min(other.x2),
            y2: self.y2.min(other.y2),
        }
    }

    fn join(self, other: Area) -> Area {
        Area {
            x1: self.x1.min(other.x1),
            y1: self.y1.min(other.y1),
            x2: self.x2.max(other.x2),
            y2: self.y2.max(other.y2),
        }
    }

    fn holds(self, other: Area) -> bool {
        self.x1 <= other.x1 && self.y1 <= other.y1 && other.x2 <= self.x2 && other.y2 <= self.y2
    }
}

struct Damage {
    panel: Area,
    areas: Vec<Area>,
}

impl Damage {
    fn add(&mut self, area: Area) {
        let part = area.meet(self.panel);
        if part.is_empty() || self.areas.iter().any(|listed| listed.holds(part)) {
            return;
        }
        if self.areas.len() == 32 {
            self.areas.clear();
            self.areas.push(self.panel);
            return;
        }
        self.areas.push(part);
    }

    fn pair_to_join(&self) -> Option<(usize, usize)> {
        for i in 0..self.areas.len() {
            for j in i + 1..self.areas.len() {
                let (a, b) = (self.areas[i], self.areas[j]);
                if !a.meet(b).is_empty() && a.join(b).size() < a.size() + b.size() {
                    return Some((i, j));
                }
            }
        }
        None
    }

    fn join_all(&mut self) {
        while let Some((i, j)) = self.pair_to_join() {
            self.areas[i] = self.areas[i].join(self.areas[j]);
            self.areas.remove(j);
        }
    }

    fn take_slice(&mut self, limit: u32) -> Option<Area> {
        let first = *self.areas.first()?;
        let lines = first.height().min(limit / first.width());
        let slice = Area { y2: first.y1 + lines as i32 - 1, ..first };
        if lines == first.height() {
            self.areas.remove(0);
        } else {
            self.areas[0].y1 += lines as i32;
        }
        Some(slice)
    }
}

fn small(i: i32) -> Area {
    Area::at(i * 10, 7, 8, 8)
}

fn linked(i: i32) -> Area {
    Area::at(i * 8, 7, 9, 9)
}

fn join(chain: bool, turns: u32) -> u64 {
    let panel = Area::at(0, 0, WIDTH, HEIGHT);
    let mut damage = Damage { panel, areas: Vec::with_capacity(32) };
    let mut left = 0;
    for _ in 0..turns {
        damage.areas.clear();
        for i in 0..32 {
            damage.add(if chain { linked(i) } else { small(i) });
        }
        damage.join_all();
        left += damage.areas.len() as u64;
    }
    left
}

fn refresh(whole: bool, turns: u32) -> u64 {
    let panel = Area::at(0, 0, WIDTH, HEIGHT);
    let mut damage = Damage { panel, areas: Vec::with_capacity(32) };
    damage.add(panel);
    let mut pixels = vec![0xA5A5u16; (WIDTH * HEIGHT) as usize];
    let mut buffer = vec![0u16; LIMIT as usize];
    let mut sent = 0;
    for _ in 0..turns {
        if whole {
            damage.add(panel);
        } else {
            for i in 0..32 {
                damage.add(small(i));
            }
        }
        damage.join_all();
        while let Some(slice) = damage.take_slice(LIMIT) {
            let size = slice.size() as usize;
            buffer[..size].fill(0);
            let lines = (slice.y1..=slice.y2).zip(buffer[..size].chunks(slice.width() as usize));
            for (y, line) in lines {
                let start = (y * WIDTH + slice.x1) as usize;
                pixels[start..start + line.len()].copy_from_slice(line);
            }
            sent += size as u64;
        }
    }
    std::hint::black_box(&pixels);
    sent
}

fn main() {
    let numbers: Vec<u32> = std::env::args().skip(1).map(|word| word.parse().unwrap_or(0)).collect();
    let count = match numbers[0] {
        0 => join(true, numbers[1]),
        1 => join(false, numbers[1]),
        kind => refresh(kind > 2, numbers[1]),
    };
    println!("{count}");
}
