// Events on a path of sixteen objects with eight handlers each, as plain Rust does them: events.rs EVENTS.
use std::io::Write;

#[derive(Clone, Copy, PartialEq)]
enum Kind {
    Pressed,
    Clicked,
}

#[derive(Clone, Copy)]
enum Action {
    Say,
    Hide(u16),
}

#[derive(Default)]
struct Object {
    there: bool,
    bubble: bool,
    hidden: bool,
    parent: Option<u16>,
    handlers: Vec<(Kind, Action)>,
}

fn path(objects: &[Object], target: u16) -> Vec<u16> {
    let mut path = Vec::with_capacity(16);
    let mut at = Some(target);
    while let Some(h) = at {
        let object = &objects[h as usize];
        if !object.there {
            break;
        }
        path.push(h);
        at = if object.bubble { object.parent } else { None };
    }
    path
}

fn send(objects: &mut [Object], kind: Kind, target: u16, log: &mut impl Write) -> std::io::Result<()> {
    for current in path(objects, target) {
        let mut n = 0;
        while objects[current as usize].there && n < objects[current as usize].handlers.len() {
            let (of, action) = objects[current as usize].handlers[n];
            n += 1;
            if of != kind {
                continue;
            }
            match action {
                Action::Say => {
                    let line = format!("event clicked {target} {current}\n");
                    log.write_all(line.as_bytes())?;
                }
                Action::Hide(h) => objects[h as usize].hidden = true,
            }
        }
    }
    Ok(())
}

fn main() -> std::io::Result<()> {
    let events: usize = std::env::args().nth(1).and_then(|word| word.parse().ok()).unwrap_or(5_000);
    let mut objects: Vec<Object> = (0..65_536).map(|_| Object::default()).collect();
    let handles: Vec<u16> = std::iter::once(3).chain(10..25).collect();
    for (i, &h) in handles.iter().enumerate() {
        objects[h as usize] = Object {
            there: true,
            bubble: i > 0,
            hidden: false,
            parent: (i > 0).then(|| handles[i - 1]),
            handlers: vec![(Kind::Clicked, Action::Say); 8],
        };
    }
    // What no event of the bench asks for, so that the branches stay.
    objects[3].handlers.push((Kind::Pressed, Action::Hide(3)));
    let mut log = std::io::stderr();
    for line in 0..events {
        send(&mut objects, Kind::Clicked, 24, &mut log)?;
        log.write_all(format!("{} ok\n", line + 159).as_bytes())?;
    }
    Ok(())
}
