//! The same work as `flex.txt`, in plain Rust: `flex ITEMS TURNS`.

#[derive(Clone, Copy)]
pub struct Item {
    pub main: i32,
    pub cross: i32,
    pub grow: u8,
    pub main_at: i32,
    pub cross_at: i32,
}

#[derive(Clone, Copy)]
#[allow(dead_code)]
pub enum Placing {
    Start,
    End,
    Center,
    SpaceEvenly,
    SpaceAround,
    SpaceBetween,
}

#[derive(Clone, Copy)]
pub struct Places {
    pub main: Placing,
    pub cross: Placing,
    pub track: Placing,
}

fn counted(item: &Item) -> i32 {
    if item.grow > 0 { 0 } else { item.main }
}

fn track_len(items: &[Item], wrap: bool, extent: i32, gap: i32) -> usize {
    let mut long = counted(&items[0]);
    for (i, item) in items.iter().enumerate().skip(1) {
        long += gap + counted(item);
        if wrap && long > extent {
            return i;
        }
    }
    items.len()
}

fn free_space(track: &[Item], extent: i32, gap: i32) -> i32 {
    let sizes: i32 = track.iter().map(counted).sum();
    (extent - sizes - gap * (track.len() as i32 - 1)).max(0)
}

fn weight(track: &[Item]) -> i32 {
    track.iter().map(|item| i32::from(item.grow)).sum()
}

fn share_track(track: &mut [Item], extent: i32, gap: i32) {
    let free = i64::from(free_space(track, extent, gap));
    let weight = i64::from(weight(track));
    let mut before = 0;
    for item in track.iter_mut().filter(|item| item.grow > 0) {
        let with = before + i64::from(item.grow);
        item.main = (free * with / weight - free * before / weight) as i32;
        before = with;
    }
}

#[inline(never)]
pub fn share(items: &mut [Item], wrap: bool, extent: i32, gap: i32) {
    let mut rest = items;
    while !rest.is_empty() {
        let count = track_len(rest, wrap, extent, gap);
        let (track, after) = rest.split_at_mut(count);
        share_track(track, extent, gap);
        rest = after;
    }
}

fn spread(placing: Placing, free: i32, i: i32, n: i32) -> i32 {
    match placing {
        Placing::Start => 0,
        Placing::End => free,
        Placing::Center => free / 2,
        Placing::SpaceEvenly => free * (i + 1) / (n + 1),
        Placing::SpaceAround => free * (2 * i + 1) / (2 * n),
        Placing::SpaceBetween if n == 1 => 0,
        Placing::SpaceBetween => free * i / (n - 1),
    }
}

fn thickness(track: &[Item]) -> i32 {
    track.iter().map(|item| item.cross).max().unwrap_or(0)
}

fn across(placing: Placing, room: i32) -> i32 {
    match placing {
        Placing::End => room,
        Placing::Center => room / 2,
        _ => 0,
    }
}

fn place_track(track: &mut [Item], places: Places, extent: i32, gap: i32, at: i32) {
    let free = if weight(track) > 0 { 0 } else { free_space(track, extent, gap) };
    let thickness = thickness(track);
    let count = track.len() as i32;
    let mut before = 0;
    for (i, item) in track.iter_mut().enumerate() {
        item.main_at = before + gap * i as i32 + spread(places.main, free, i as i32, count);
        item.cross_at = at + across(places.cross, thickness - item.cross);
        before += item.main;
    }
}

pub fn measure(items: &[Item], wrap: bool, extent: i32, gap: i32) -> (i32, i32) {
    let (mut count, mut sizes) = (0, 0);
    let mut rest = items;
    while !rest.is_empty() {
        let (track, after) = rest.split_at(track_len(rest, wrap, extent, gap));
        count += 1;
        sizes += thickness(track);
        rest = after;
    }
    (count, sizes)
}

#[inline(never)]
pub fn place(
    items: &mut [Item],
    wrap: bool,
    places: Places,
    extent: i32,
    cross_extent: i32,
    gap: i32,
    track_gap: i32,
) {
    let (count, sizes) = measure(items, wrap, extent, gap);
    let free = (cross_extent - sizes - track_gap * (count - 1)).max(0);
    let (mut i, mut before) = (0, 0);
    let mut rest = items;
    while !rest.is_empty() {
        let taken = track_len(rest, wrap, extent, gap);
        let (track, after) = rest.split_at_mut(taken);
        let at = before + track_gap * i + spread(places.track, free, i, count);
        before += thickness(track);
        place_track(track, places, extent, gap, at);
        i += 1;
        rest = after;
    }
}

fn main() {
    let words: Vec<String> = std::env::args().collect();
    let (count, turns): (u32, u32) = (words[1].parse().unwrap(), words[2].parse().unwrap());
    let mut items: Vec<Item> = (0..count)
        .map(|i| Item {
            main: (i % 37) as i32,
            cross: (i % 29) as i32,
            grow: if i % 8 == 0 { 1 + (i % 3) as u8 } else { 0 },
            main_at: 0,
            cross_at: 0,
        })
        .collect();
    let places = Places {
        main: Placing::SpaceAround,
        cross: Placing::Center,
        track: Placing::SpaceEvenly,
    };
    let mut sum = 0i64;
    for i in 0..turns {
        let extent = 300 + (i % 200) as i32;
        share(&mut items, true, extent, 2);
        place(&mut items, true, places, extent, 8000, 2, 3);
        if let Some(item) = items.last() {
            sum = sum.wrapping_add(item.main_at.into()).wrapping_add(item.cross_at.into());
        }
    }
    println!("{sum}");
}
