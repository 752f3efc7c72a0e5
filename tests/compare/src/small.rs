//! All drawings of some small size: scripts over a few commands, text elements, links, uses.
use crate::codes::{a, e};
use crate::commands::{Bytes, Command, write};
use host::check::check;

fn alphabet() -> Vec<Command> {
    let open = |code| Command::Open { code, namespace: 1 };
    let attribute = |name, namespace, value: &str| Command::Attribute { name, namespace, value: value.as_bytes().to_vec() };
    let declaration = |name, important, value: &str| Command::Declaration { name, important, value: value.as_bytes().to_vec() };
    vec![
        open(e::Svg),
        open(e::G),
        open(e::Text),
        open(e::Tspan),
        open(e::Use),
        open(e::Style),
        attribute(a::Id, 0, "a"),
        attribute(a::Href, 2, "#a"),
        attribute(a::Space, 3, "preserve"),
        attribute(a::Fill, 0, "inherit"),
        declaration(a::Fill, 1, "#a"),
        declaration(a::Font, 0, "1 b"),
        Command::Reading { kind: 1, offset: 1, length: 1 },
        Command::Reading { kind: 9, offset: 0, length: 1 },
        Command::Reading { kind: 10, offset: 2, length: 1 },
        Command::Text(b" a ".to_vec()),
        Command::Text(b" ".to_vec()),
        Command::Other,
        Command::Close,
    ]
}

/// Whether commands that follow can make a drawing of it that check takes: it only lacks an element, closes, or the other half of a
/// font.
fn is_open(bytes: &Bytes, length: usize) -> bool {
    let mut script = bytes.script.clone();
    if script.iter().all(|&byte| byte == 6) {
        return true;
    }
    for _ in 0..=length {
        if matches!(check(&script, &bytes.characters), 0 | 7) {
            return true;
        }
        script.push(7);
    }
    false
}

/// Calls with each script of up to so many commands, those left out that begin with a script which nothing that follows can mend: they
/// have the answer of that script.
pub fn all(most: usize, see: &mut dyn FnMut(&Bytes)) {
    let alphabet = alphabet();
    let mut lists = vec![Bytes::default()];
    for length in 0..=most {
        let mut longer = Vec::new();
        for bytes in &lists {
            see(bytes);
            if length < most && is_open(bytes, length) {
                longer.extend(alphabet.iter().map(|command| {
                    let mut next = bytes.clone();
                    next.push(command);
                    next
                }));
            }
        }
        lists = longer;
    }
}

/// Every list of up to so many choices out of `count`.
fn lists(count: usize, most: usize, see: &mut dyn FnMut(&[usize])) {
    let mut chosen = Vec::new();
    loop {
        see(&chosen);
        if chosen.len() < most {
            chosen.push(0);
            continue;
        }
        loop {
            match chosen.pop() {
                None => return,
                Some(last) if last + 1 < count => {
                    chosen.push(last + 1);
                    break;
                }
                Some(_) => {}
            }
        }
    }
}

const TEXTS: [&str; 7] = ["", " ", "a", " a", "a ", " a ", "\u{a0} "];

/// All text elements of up to so many texts, each directly in it, in a tspan, in one that preserves, or behind a tspan that stays open.
pub fn texts(most: usize, see: &mut dyn FnMut(&Bytes)) {
    let open = |code| Command::Open { code, namespace: 1 };
    let preserve = Command::Attribute { name: a::Space, namespace: 3, value: b"preserve".to_vec() };
    for preserved in [false, true] {
        lists(TEXTS.len() * 4, most, &mut |chosen| {
            let mut commands = vec![open(e::Svg), open(e::Text)];
            if preserved {
                commands.push(preserve.clone());
            }
            let mut left_open = 0;
            for &choice in chosen {
                let text = Command::Text(TEXTS[choice / 4].as_bytes().to_vec());
                match choice % 4 {
                    0 => commands.push(text),
                    1 => commands.extend([open(e::Tspan), text, Command::Close]),
                    2 => commands.extend([open(e::Tspan), preserve.clone(), text, Command::Close]),
                    _ => {
                        commands.extend([open(e::Tspan), text]);
                        left_open += 1;
                    }
                }
            }
            commands.extend((0..left_open + 2).map(|_| Command::Close));
            see(&write(&commands));
        });
    }
}

/// A link of one kind: the element that it makes a loop with, and the attribute, its namespace, and the kinds of its readings.
struct Link {
    element: u8,
    name: u8,
    kinds: &'static [u8],
}

const LINKS: [Link; 5] = [
    Link { element: e::Pattern, name: a::Fill, kinds: &[3] },
    Link { element: e::Pattern, name: a::Stroke, kinds: &[3] },
    Link { element: e::ClipPath, name: a::ClipPath, kinds: &[2] },
    Link { element: e::Mask, name: a::Mask, kinds: &[2] },
    Link { element: e::Filter, name: a::Filter, kinds: &[2, 4] },
];

/// Elements one behind the other or one in the other, as the choices say: each choice is an element's commands, and whether the next one
/// stands in it.
fn arranged(chosen: &[(Vec<Command>, bool)]) -> Bytes {
    let mut commands = vec![Command::Open { code: e::Svg, namespace: 1 }];
    let mut left_open = 1;
    for (element, holds_next) in chosen {
        commands.extend_from_slice(element);
        if *holds_next {
            left_open += 1;
        } else {
            commands.push(Command::Close);
        }
    }
    commands.extend((0..left_open).map(|_| Command::Close));
    write(&commands)
}

const IDS: [Option<&str>; 3] = [None, Some("a"), Some("b")];

fn id(commands: &mut Vec<Command>, id: Option<&str>) {
    commands.extend(id.map(|id| Command::Attribute { name: a::Id, namespace: 0, value: id.as_bytes().to_vec() }));
}

fn linked(commands: &mut Vec<Command>, name: u8, kinds: &[u8], to: Option<&str>) {
    if let Some(to) = to {
        commands.push(Command::Attribute { name, namespace: 0, value: format!("#{to}").into_bytes() });
        commands.extend(kinds.iter().map(|&kind| Command::Reading { kind, offset: 1, length: 1 }));
    }
}

/// All arrangements of up to so many elements that link to one another, for each kind of repair; and of filters and feImages.
pub fn links(most: usize, see: &mut dyn FnMut(&Bytes)) {
    for link in &LINKS {
        lists(36, most, &mut |chosen| {
            let element = |&choice: &usize| {
                let code = if choice % 2 == 0 { link.element } else { e::G };
                let mut commands = vec![Command::Open { code, namespace: 1 }];
                id(&mut commands, IDS[choice / 2 % 3]);
                linked(&mut commands, link.name, link.kinds, IDS[choice / 6 % 3]);
                (commands, choice / 18 == 1)
            };
            see(&arranged(&chosen.iter().map(element).collect::<Vec<_>>()));
        });
    }
    lists(36, most, &mut |chosen| {
        let element = |&choice: &usize| {
            let code = if choice % 2 == 0 { e::Filter } else { e::FeImage };
            let mut commands = vec![Command::Open { code, namespace: 1 }];
            id(&mut commands, IDS[choice / 2 % 3]);
            let (name, kind) = if choice % 2 == 0 { (a::Filter, 4) } else { (a::Href, 1) };
            linked(&mut commands, name, &[kind], IDS[choice / 6 % 3]);
            (commands, choice / 18 == 1)
        };
        see(&arranged(&chosen.iter().map(element).collect::<Vec<_>>()));
    });
}

/// All arrangements of up to so many groups and uses, the uses in the SVG namespace or in none.
pub fn uses(most: usize, see: &mut dyn FnMut(&Bytes)) {
    lists(42, most, &mut |chosen| {
        let element = |&choice: &usize| {
            let (kind, holds_next) = (choice % 21, choice / 21 == 1);
            let mut commands = Vec::new();
            if kind < 3 {
                commands.push(Command::Open { code: e::G, namespace: 1 });
                id(&mut commands, IDS[kind]);
            } else {
                commands.push(Command::Open { code: e::Use, namespace: ((kind - 3) / 9) as u8 });
                id(&mut commands, IDS[(kind - 3) % 3]);
                linked(&mut commands, a::Href, &[1], IDS[(kind - 3) / 3 % 3]);
            }
            (commands, holds_next)
        };
        see(&arranged(&chosen.iter().map(element).collect::<Vec<_>>()));
    });
}
