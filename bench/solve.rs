//! The same work as `solve.txt`, in plain Rust: `solve LAYOUT COUNT STYLED TURNS`. All that is known of an object
//! stands in one slot, and its links are handles. With the layout `buckets` a slot is found by the low bits of its
//! handle, in memory that goes by the number of objects, as in the library. With `direct` there is a slot's number
//! for each handle that may be.

#[allow(dead_code)]
#[path = "flex.rs"]
mod flex;
#[allow(dead_code)]
#[path = "lookups.rs"]
mod lookups;

use flex::{Item, Placing, Places};
use lookups::{Entry, FIRST_STYLE, Lists, Part, Selector, Slots, Styles, Use};

#[derive(Clone, Copy)]
enum Length {
    Pixels(u16),
    Percent(u8),
    Content,
}

#[derive(Clone, Copy)]
enum Side {
    Near,
    Middle,
    Far,
}

#[derive(Clone, Copy)]
#[allow(dead_code)]
enum Flow {
    Free,
    Row,
    Column,
    RowWrap,
    ColumnWrap,
    RowReverse,
    ColumnReverse,
    RowWrapReverse,
    ColumnWrapReverse,
}

#[derive(Clone, Copy)]
enum Course {
    Free,
    Across,
    Down,
}

impl Flow {
    fn course(self) -> Course {
        use Flow::*;
        match self {
            Free => Course::Free,
            Row | RowWrap | RowReverse | RowWrapReverse => Course::Across,
            Column | ColumnWrap | ColumnReverse | ColumnWrapReverse => Course::Down,
        }
    }

    fn wraps(self) -> bool {
        use Flow::*;
        matches!(self, RowWrap | ColumnWrap | RowWrapReverse | ColumnWrapReverse)
    }

    fn is_reversed(self) -> bool {
        use Flow::*;
        matches!(self, RowReverse | ColumnReverse | RowWrapReverse | ColumnWrapReverse)
    }
}

/// Border and pads of an object and the gaps between its children.
#[derive(Clone, Copy, Default)]
struct Insets {
    left: u16,
    right: u16,
    top: u16,
    bottom: u16,
    gap_across: u16,
    gap_down: u16,
}

type Handle = u16;

/// No object has this handle.
const NONE: Handle = u16::MAX;

/// Handles are below this.
const HANDLES: usize = 10_000;

struct Object {
    handle: Handle,
    first: Handle,
    last: Handle,
    next: Handle,
    // The slot of another object with the same low bits.
    beside: u16,
    hidden: bool,
    states: u16,
    width: Length,
    height: Length,
    across: Side,
    down: Side,
    x: i32,
    y: i32,
    flow: Flow,
    places: Places,
    grow: u8,
    insets: Insets,
    natural_width: u16,
    natural_height: u16,
    solved_width: u16,
    solved_height: u16,
    at_x: i32,
    at_y: i32,
}

/// The slots of the objects by handle.
trait Index {
    fn with_room(objects: usize) -> Self;

    /// The slot of a handle that has one.
    fn slot(&self, objects: &[Object], h: Handle) -> usize;

    fn insert(&mut self, objects: &mut Vec<Object>, object: Object);
}

struct Direct(Vec<u16>);

impl Index for Direct {
    fn with_room(_objects: usize) -> Self {
        Direct(vec![NONE; HANDLES])
    }

    fn slot(&self, _objects: &[Object], h: Handle) -> usize {
        self.0[h as usize] as usize
    }

    fn insert(&mut self, objects: &mut Vec<Object>, object: Object) {
        self.0[object.handle as usize] = objects.len() as u16;
        objects.push(object);
    }
}

struct Buckets {
    firsts: Vec<u16>,
    mask: usize,
}

impl Index for Buckets {
    fn with_room(objects: usize) -> Self {
        let buckets = objects.next_power_of_two();
        Buckets { firsts: vec![NONE; buckets], mask: buckets - 1 }
    }

    fn slot(&self, objects: &[Object], h: Handle) -> usize {
        let mut slot = self.firsts[h as usize & self.mask] as usize;
        while objects[slot].handle != h {
            slot = objects[slot].beside as usize;
        }
        slot
    }

    fn insert(&mut self, objects: &mut Vec<Object>, mut object: Object) {
        let first = &mut self.firsts[object.handle as usize & self.mask];
        object.beside = *first;
        *first = objects.len() as u16;
        objects.push(object);
    }
}

const PROPS: [u8; 7] = [4, 5, 6, 7, 8, 9, 10];

fn brought(n: u32) -> u16 {
    n.min(8191) as u16
}

fn size_in(size: Length, room: u16, natural: u16) -> u16 {
    match size {
        Length::Pixels(n) => brought(n.into()),
        Length::Percent(n) => brought(u32::from(room) * u32::from(n) / 100),
        Length::Content => natural,
    }
}

fn natural_size(size: Length, border: u32, inside: u32) -> u16 {
    match size {
        Length::Pixels(n) => brought(n.into()),
        Length::Percent(_) => 0,
        Length::Content => brought(border + inside),
    }
}

fn inner(size: u16, before: u16, after: u16) -> u16 {
    size.saturating_sub(before + after)
}

fn reach(side: Side, wanted: i32, natural: u16) -> u32 {
    match side {
        Side::Near => (i32::from(natural) + wanted).max(0) as u32,
        _ => natural.into(),
    }
}

fn side_at(side: Side, room: u16, size: u16) -> i32 {
    let free = i32::from(room) - i32::from(size);
    match side {
        Side::Near => 0,
        Side::Middle => free.div_euclid(2),
        Side::Far => free,
    }
}

/// A content area.
#[derive(Clone, Copy)]
struct Room {
    x: i32,
    y: i32,
    width: u16,
    height: u16,
}

struct Scene<I> {
    index: I,
    objects: Vec<Object>,
    styles: Styles<Slots<Entry>, Slots<Use>>,
    items: Vec<Item>,
}

fn new_item(main: u16, cross: u16, grow: u8) -> Item {
    Item { main: main.into(), cross: cross.into(), grow, main_at: 0, cross_at: 0 }
}

fn turn(items: &mut [Item], back: bool) {
    if back {
        items.reverse();
    }
}

impl<I: Index> Scene<I> {
    fn at(&self, h: Handle) -> &Object {
        &self.objects[self.index.slot(&self.objects, h)]
    }

    fn at_mut(&mut self, h: Handle) -> &mut Object {
        let slot = self.index.slot(&self.objects, h);
        &mut self.objects[slot]
    }

    fn insert(&mut self, handle: Handle) {
        let object = Object {
            handle,
            first: NONE,
            last: NONE,
            next: NONE,
            beside: NONE,
            hidden: false,
            states: 0,
            width: Length::Pixels(100),
            height: Length::Pixels(50),
            across: Side::Near,
            down: Side::Near,
            x: 0,
            y: 0,
            flow: Flow::Free,
            places: Places { main: Placing::Start, cross: Placing::Start, track: Placing::Start },
            grow: 0,
            insets: Insets::default(),
            natural_width: 0,
            natural_height: 0,
            solved_width: 0,
            solved_height: 0,
            at_x: 0,
            at_y: 0,
        };
        self.index.insert(&mut self.objects, object);
    }

    fn link(&mut self, handle: Handle, parent: Handle) {
        let last = self.at(parent).last;
        if last == NONE {
            self.at_mut(parent).first = handle;
        } else {
            self.at_mut(last).next = handle;
        }
        self.at_mut(parent).last = handle;
    }

    /// The insets and gaps of each object, by the cascade.
    fn resolve(&mut self) {
        for object in &mut self.objects {
            let [border, top, bottom, left, right, row, column] = PROPS.map(|prop| {
                self.styles.lookup(object.handle, Part::Main, object.states, prop).unwrap_or(0) as u16
            });
            object.insets = Insets {
                left: border + left,
                right: border + right,
                top: border + top,
                bottom: border + bottom,
                gap_across: column,
                gap_down: row,
            };
        }
    }

    fn natural_widths(&mut self, h: Handle) {
        let own = self.at(h);
        let course = own.flow.course();
        let (mut size, mut count) = (0u32, 0u32);
        let mut next = own.first;
        while next != NONE {
            self.natural_widths(next);
            let kid = self.at(next);
            next = kid.next;
            if kid.hidden {
                continue;
            }
            count += 1;
            match course {
                Course::Free => size = size.max(reach(kid.across, kid.x, kid.natural_width)),
                Course::Across if kid.grow > 0 => {}
                Course::Across => size += u32::from(kid.natural_width),
                Course::Down => size = size.max(kid.natural_width.into()),
            }
        }
        let own = self.at_mut(h);
        if let Course::Across = course {
            size += u32::from(own.insets.gap_across) * count.saturating_sub(1);
        }
        let border = u32::from(own.insets.left) + u32::from(own.insets.right);
        own.natural_width = natural_size(own.width, border, size);
    }

    /// The shares of the children of a row.
    fn row_shares(&mut self, first: Handle, flow: Flow, room: u16, gap: u16) {
        self.items.clear();
        let mut next = first;
        while next != NONE {
            let kid = &self.objects[self.index.slot(&self.objects, next)];
            next = kid.next;
            if !kid.hidden {
                self.items.push(new_item(size_in(kid.width, room, kid.natural_width), 0, kid.grow));
            }
        }
        turn(&mut self.items, flow.is_reversed());
        flex::share(&mut self.items, flow.wraps(), room.into(), gap.into());
        turn(&mut self.items, flow.is_reversed());
    }

    fn widths(&mut self, h: Handle) {
        let own = self.at(h);
        let (first, flow) = (own.first, own.flow);
        let room = inner(own.solved_width, own.insets.left, own.insets.right);
        let gap = own.insets.gap_across;
        let is_row = matches!(flow.course(), Course::Across);
        if is_row {
            self.row_shares(first, flow, room, gap);
        }
        let mut dealt = 0;
        let mut next = first;
        while next != NONE {
            let slot = self.index.slot(&self.objects, next);
            let kid = &mut self.objects[slot];
            next = kid.next;
            if is_row && !kid.hidden {
                kid.solved_width = self.items[dealt].main as u16;
                dealt += 1;
            } else {
                kid.solved_width = size_in(kid.width, room, kid.natural_width);
            }
        }
        let mut next = first;
        while next != NONE {
            self.widths(next);
            next = self.at(next).next;
        }
    }

    /// How high the tracks of a row are together.
    fn tracks_height(&mut self, first: Handle, flow: Flow, room: u16, insets: Insets) -> u32 {
        self.items.clear();
        let mut next = first;
        while next != NONE {
            let kid = &self.objects[self.index.slot(&self.objects, next)];
            next = kid.next;
            if !kid.hidden {
                self.items.push(new_item(kid.solved_width, kid.natural_height, kid.grow));
            }
        }
        turn(&mut self.items, flow.is_reversed());
        let (count, sizes) = flex::measure(&self.items, flow.wraps(), room.into(), insets.gap_across.into());
        sizes as u32 + u32::from(insets.gap_down) * (count as u32).saturating_sub(1)
    }

    fn natural_heights(&mut self, h: Handle) {
        let own = self.at(h);
        let (first, flow, insets) = (own.first, own.flow, own.insets);
        let room = inner(own.solved_width, insets.left, insets.right);
        let (mut size, mut count) = (0u32, 0u32);
        let mut next = first;
        while next != NONE {
            self.natural_heights(next);
            let kid = self.at(next);
            next = kid.next;
            if kid.hidden {
                continue;
            }
            count += 1;
            match flow.course() {
                Course::Across => {}
                Course::Free => size = size.max(reach(kid.down, kid.y, kid.natural_height)),
                Course::Down if kid.grow > 0 => {}
                Course::Down => size += u32::from(kid.natural_height),
            }
        }
        match flow.course() {
            Course::Across => size = self.tracks_height(first, flow, room, insets),
            Course::Down => size += u32::from(insets.gap_down) * count.saturating_sub(1),
            Course::Free => {}
        }
        let own = self.at_mut(h);
        own.natural_height = natural_size(own.height, u32::from(insets.top) + u32::from(insets.bottom), size);
    }

    /// Makes the items the children that take part in a flow, each with its place.
    fn place_flow(&mut self, first: Handle, flow: Flow, places: Places, room: Room, insets: Insets) {
        self.items.clear();
        let is_row = matches!(flow.course(), Course::Across);
        let mut next = first;
        while next != NONE {
            let kid = &self.objects[self.index.slot(&self.objects, next)];
            next = kid.next;
            if !kid.hidden {
                let height = size_in(kid.height, room.height, kid.natural_height);
                self.items.push(match is_row {
                    true => new_item(kid.solved_width, height, kid.grow),
                    false => new_item(height, kid.solved_width, kid.grow),
                });
            }
        }
        let (wide, high) = (room.width.into(), room.height.into());
        let (across, down) = (insets.gap_across.into(), insets.gap_down.into());
        turn(&mut self.items, flow.is_reversed());
        if is_row {
            flex::place(&mut self.items, flow.wraps(), places, wide, high, across, down);
        } else {
            flex::share(&mut self.items, flow.wraps(), high, down);
            flex::place(&mut self.items, flow.wraps(), places, high, wide, down, across);
        }
        turn(&mut self.items, flow.is_reversed());
    }

    fn places(&mut self, h: Handle) {
        let own = self.at(h);
        let (first, flow, insets) = (own.first, own.flow, own.insets);
        let room = Room {
            x: own.at_x + i32::from(insets.left),
            y: own.at_y + i32::from(insets.top),
            width: inner(own.solved_width, insets.left, insets.right),
            height: inner(own.solved_height, insets.top, insets.bottom),
        };
        let course = flow.course();
        if !matches!(course, Course::Free) {
            self.place_flow(first, flow, own.places, room, insets);
        }
        let mut dealt = 0;
        let mut next = first;
        while next != NONE {
            let slot = self.index.slot(&self.objects, next);
            let kid = &mut self.objects[slot];
            next = kid.next;
            if matches!(course, Course::Free) || kid.hidden {
                kid.solved_height = size_in(kid.height, room.height, kid.natural_height);
                kid.at_x = room.x + side_at(kid.across, room.width, kid.solved_width) + kid.x;
                kid.at_y = room.y + side_at(kid.down, room.height, kid.solved_height) + kid.y;
                continue;
            }
            let item = &self.items[dealt];
            dealt += 1;
            let (x, y, height) = match course {
                Course::Down => (item.cross_at, item.main_at, item.main),
                _ => (item.main_at, item.cross_at, item.cross),
            };
            kid.at_x = room.x + x;
            kid.at_y = room.y + y;
            kid.solved_height = height as u16;
        }
        let mut next = first;
        while next != NONE {
            self.places(next);
            next = self.at(next).next;
        }
    }

    #[inline(never)]
    fn solve_all(&mut self) {
        self.resolve();
        for root in 1..4 {
            self.natural_widths(root);
            self.at_mut(root).solved_width = 320;
            self.widths(root);
            self.natural_heights(root);
            let own = self.at_mut(root);
            own.solved_height = 240;
            (own.at_x, own.at_y) = (0, 0);
            self.places(root);
        }
    }

    fn add(&mut self, i: u32) {
        let h = object(i);
        self.insert(h);
        self.link(h, parent(i));
        let (across, down) = align(i);
        let object = self.at_mut(h);
        object.width = width(i);
        object.height = height(i);
        (object.across, object.down) = (across, down);
        (object.x, object.y) = ((i % 7) as i32, (i % 5) as i32);
        object.flow = flow(i);
        object.places =
            Places { main: Placing::SpaceAround, cross: Placing::Center, track: Placing::SpaceEvenly };
        object.grow = if i % 8 == 0 { 1 } else { 0 };
        object.hidden = i % 50 == 49;
    }

    fn style(&mut self, i: u32) {
        let h = object(i);
        for (style, states) in [(1, 0), (2, 32), (3, 1), (4, 33)] {
            self.styles.uses.push(h.into(), Use { style, selector: main_in(states) });
        }
        if i % 3 == 0 {
            self.at_mut(h).states = 32;
        }
        if i % 2 == 0 {
            for (prop, value) in [(9, 2), (10, 3)] {
                self.styles.entries.push(h.into(), Entry { selector: main_in(0), prop, value });
            }
        }
    }

    fn filled(count: u32, styled: bool) -> Self {
        let styles = Styles {
            entries: Slots::with_room(FIRST_STYLE + 1000, 20_000),
            uses: Slots::with_room(HANDLES, 20_000),
        };
        let mut scene =
            Scene { index: I::with_room(4000), objects: Vec::with_capacity(4000), styles, items: vec![] };
        for style in 1..5 {
            for prop in [1, 4, 7, 5, 3] {
                let entry = Entry { selector: main_in(0), prop, value: style };
                scene.styles.entries.push(FIRST_STYLE + style as usize, entry);
            }
        }
        for root in 1..4 {
            scene.insert(root);
        }
        for i in 0..count {
            scene.add(i);
            if styled {
                scene.style(i);
            }
        }
        scene
    }

    fn run(count: u32, styled: bool, turns: u32) -> i64 {
        let mut scene = Self::filled(count, styled);
        for i in 0..turns {
            let moved = scene.at_mut(object(0));
            (moved.x, moved.y) = ((i % 9) as i32, 0);
            scene.solve_all();
        }
        let mut sum = 0;
        for i in 0..count {
            let object = scene.at(object(i));
            let (width, height) = (i64::from(object.solved_width), i64::from(object.solved_height));
            sum += 2 * i64::from(object.at_x) + width - 1 + 2 * i64::from(object.at_y) + height - 1;
        }
        sum
    }
}

fn main_in(states: u16) -> Selector {
    Selector { part: Part::Main, states }
}

fn object(i: u32) -> Handle {
    10 + i as u16
}

fn parent(i: u32) -> Handle {
    if i < 8 { 3 } else { object(i / 8 - 1) }
}

fn width(i: u32) -> Length {
    match i % 5 {
        0 => Length::Content,
        1 => Length::Percent((20 + i % 30) as u8),
        _ => Length::Pixels((5 + i % 40) as u16),
    }
}

fn height(i: u32) -> Length {
    match i % 3 {
        0 => Length::Content,
        1 => Length::Pixels((3 + i % 20) as u16),
        _ => Length::Percent((10 + i % 40) as u8),
    }
}

fn align(i: u32) -> (Side, Side) {
    match i % 3 {
        0 => (Side::Near, Side::Near),
        1 => (Side::Middle, Side::Middle),
        _ => (Side::Far, Side::Far),
    }
}

fn flow(i: u32) -> Flow {
    match i % 4 {
        0 => Flow::RowWrap,
        1 => Flow::Column,
        2 => Flow::Free,
        _ => Flow::RowReverse,
    }
}

fn main() {
    let words: Vec<String> = std::env::args().collect();
    let (count, turns) = (words[2].parse().unwrap(), words[4].parse().unwrap());
    let styled = words[3] == "1";
    let sum = match words[1].as_str() {
        "direct" => Scene::<Direct>::run(count, styled, turns),
        _ => Scene::<Buckets>::run(count, styled, turns),
    };
    println!("{sum}");
}
