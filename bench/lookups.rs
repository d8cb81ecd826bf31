//! The same work as `lookups.txt`, in plain Rust over vectors: `lookups LAYOUT ENTRIES TURNS`. With the layout
//! `slots` all lists share one vector of slots, each of which names the next, as they do in the library. With
//! `rows` each list is a vector of its own, which takes memory as it grows.

#[derive(Clone, Copy, PartialEq)]
#[allow(dead_code)]
pub enum Part {
    Main,
    Scrollbar,
    Indicator,
    Knob,
}

#[derive(Clone, Copy, PartialEq)]
pub struct Selector {
    pub part: Part,
    pub states: u16,
}

pub struct Entry {
    pub selector: Selector,
    pub prop: u8,
    pub value: i32,
}

pub struct Use {
    pub style: u16,
    pub selector: Selector,
}

/// A list of values for each owner.
pub trait Lists<T> {
    fn with_room(owners: usize, slots: usize) -> Self;

    fn push(&mut self, owner: usize, value: T);

    fn of<'a>(&'a self, owner: usize) -> impl Iterator<Item = &'a T>
    where
        T: 'a;
}

pub struct Rows<T>(Vec<Vec<T>>);

impl<T> Lists<T> for Rows<T> {
    fn with_room(owners: usize, _slots: usize) -> Self {
        Rows((0..owners).map(|_| Vec::new()).collect())
    }

    fn push(&mut self, owner: usize, value: T) {
        self.0[owner].push(value);
    }

    fn of<'a>(&'a self, owner: usize) -> impl Iterator<Item = &'a T>
    where
        T: 'a,
    {
        self.0[owner].iter()
    }
}

const NOWHERE: u32 = u32::MAX;

pub struct Slots<T> {
    firsts: Vec<u32>,
    slots: Vec<(T, u32)>,
}

impl<T> Lists<T> for Slots<T> {
    fn with_room(owners: usize, slots: usize) -> Self {
        Slots { firsts: vec![NOWHERE; owners], slots: Vec::with_capacity(slots) }
    }

    fn push(&mut self, owner: usize, value: T) {
        let slot = self.slots.len() as u32;
        self.slots.push((value, NOWHERE));
        if self.firsts[owner] == NOWHERE {
            self.firsts[owner] = slot;
            return;
        }
        let mut last = self.firsts[owner] as usize;
        while self.slots[last].1 != NOWHERE {
            last = self.slots[last].1 as usize;
        }
        self.slots[last].1 = slot;
    }

    fn of<'a>(&'a self, owner: usize) -> impl Iterator<Item = &'a T>
    where
        T: 'a,
    {
        let mut at = self.firsts[owner];
        std::iter::from_fn(move || {
            let (value, next) = self.slots.get(at as usize)?;
            at = *next;
            Some(value)
        })
    }
}

/// The owner of what style 0 sets. Objects are the owners before it.
pub const FIRST_STYLE: usize = 10_000;

pub struct Styles<E, U> {
    pub entries: E,
    pub uses: U,
}

fn applies(selector: Selector, part: Part, states: u16) -> bool {
    selector.part == part && selector.states & states == selector.states
}

fn main_in(states: u32) -> Selector {
    Selector { part: Part::Main, states: states as u16 }
}

fn prop(i: u32) -> u8 {
    (i % 19) as u8
}

fn entry(states: u32, i: u32, value: i32) -> Entry {
    Entry { selector: main_in(states), prop: prop(i), value }
}

impl<E: Lists<Entry>, U: Lists<Use>> Styles<E, U> {
    /// Two styles of five properties each, which object 10 uses; its entries; and those of 1,000 others.
    fn filled(entries: u32) -> Self {
        let mut styles = Styles { entries: E::with_room(11_000, 20_000), uses: U::with_room(10_000, 512) };
        for id in [1u16, 2] {
            for i in 0..5 {
                styles.entries.push(FIRST_STYLE + id as usize, entry(0, i, id.into()));
            }
            styles.uses.push(10, Use { style: id, selector: main_in(0) });
        }
        for i in 0..10 {
            for h in 100..1100 {
                styles.entries.push(h, entry(0, i, 7));
            }
        }
        for i in 0..entries {
            styles.entries.push(10, entry(i / 19, i, (i % 1000) as i32));
        }
        styles
    }

    #[inline(never)]
    pub fn lookup(&self, h: u16, part: Part, states: u16, prop: u8) -> Option<i32> {
        let mut best: Option<(u16, i32)> = None;
        for used in self.uses.of(h as usize) {
            if !applies(used.selector, part, states) {
                continue;
            }
            let set = self.entries.of(FIRST_STYLE + used.style as usize).find(|e| e.prop == prop);
            let Some(set) = set else {
                continue;
            };
            if best.is_none_or(|(states, _)| used.selector.states >= states) {
                best = Some((used.selector.states, set.value));
            }
        }
        for entry in self.entries.of(h as usize) {
            if entry.prop == prop
                && applies(entry.selector, part, states)
                && best.is_none_or(|(states, _)| entry.selector.states >= states)
            {
                best = Some((entry.selector.states, entry.value));
            }
        }
        best.map(|(_, value)| value)
    }

    fn sum(&self, turns: u32) -> i64 {
        let mut sum = 0i64;
        for i in 0..turns {
            if let Some(value) = self.lookup(10, Part::Main, (i % 8) as u16, prop(i)) {
                sum = sum.wrapping_add(value.into());
            }
        }
        sum
    }
}

fn main() {
    let words: Vec<String> = std::env::args().collect();
    let (entries, turns) = (words[2].parse().unwrap(), words[3].parse().unwrap());
    let sum = match words[1].as_str() {
        "slots" => Styles::<Slots<Entry>, Slots<Use>>::filled(entries).sum(turns),
        _ => Styles::<Rows<Entry>, Rows<Use>>::filled(entries).sum(turns),
    };
    println!("{sum}");
}
