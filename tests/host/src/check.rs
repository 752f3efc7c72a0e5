//! A plain reader of drawings, written from document 01, sections 2 and 7, and READINGS.md alone.

/// The most bytes that script or characters may have.
pub const LIMIT: usize = 1 << 20;
/// The most elements that may be open at once.
pub const DEEPEST: usize = 2048;

/// What may still come in the element that is open.
#[derive(Clone, Copy, PartialEq, PartialOrd)]
enum Stage {
    Attributes,
    Declarations,
    Children,
}

/// The readings that belong to one value: bit k for kind k.
#[derive(Clone, Copy, Default)]
struct Kinds(u16);

impl Kinds {
    const FONT: u16 = 0b111_1110_0000;
    const BOTH_HALVES: u16 = 0b110_0000_0000;

    /// Adds a kind; only kind 4 may come again.
    fn add(&mut self, kind: u8) -> Result<(), u32> {
        let bit = 1 << kind;
        if kind != 4 && self.0 & bit != 0 {
            return Err(7);
        }
        self.0 |= bit;
        Ok(())
    }

    /// A font needs both a size and a family.
    fn end(self) -> Result<(), u32> {
        if self.0 & Self::FONT != 0 && self.0 & Self::BOTH_HALVES != Self::BOTH_HALVES { Err(7) } else { Ok(()) }
    }
}

/// The operands at the front, and what comes after them.
fn operands<const N: usize>(bytes: &[u8]) -> Result<(&[u8; N], &[u8]), u32> {
    let taken = bytes.get(..N).ok_or(2u32)?;
    Ok((taken.try_into().unwrap(), &bytes[N..]))
}

/// The next string of the characters.
fn string<'a>(characters: &mut &'a [u8], length: [u8; 4]) -> Result<&'a str, u32> {
    let length = u32::from_le_bytes(length) as usize;
    let taken = characters.get(..length).ok_or(6u32)?;
    *characters = &characters[length..];
    std::str::from_utf8(taken).map_err(|_| 9)
}

/// A part of a value: it lies inside, and it is UTF-8 itself. An empty part is, wherever it lies.
fn part(value: &str, offset: [u8; 4], length: [u8; 4], kinds: &mut Kinds, kind: u8) -> Result<(), u32> {
    let start = u32::from_le_bytes(offset) as usize;
    let end = start + u32::from_le_bytes(length) as usize;
    if end > value.len() {
        return Err(6);
    }
    kinds.add(kind)?;
    if start == end || value.get(start..end).is_some() { Ok(()) } else { Err(9) }
}

fn test(holds: bool, number: u32) -> Result<(), u32> {
    if holds { Ok(()) } else { Err(number) }
}

fn read(script: &[u8], mut characters: &[u8]) -> Result<(), u32> {
    test(script.len() <= LIMIT && characters.len() <= LIMIT, 1)?;
    let mut rest = script;
    let mut open = 0;
    let mut any = false;
    let mut stage = Stage::Children;
    let mut value: Option<&str> = None;
    let mut kinds = Kinds::default();
    while let Some((&command, after)) = rest.split_first() {
        if command == 4 {
            let (&[kind, a, b, c, d, e, f, g, h], next) = operands(after)?;
            test((1..=10).contains(&kind), 3)?;
            part(value.ok_or(4u32)?, [a, b, c, d], [e, f, g, h], &mut kinds, kind)?;
            rest = next;
            continue;
        }
        kinds.end()?;
        (value, kinds) = (None, Kinds::default());
        rest = match command {
            1 => {
                let (&[element, namespace], next) = operands(after)?;
                test((element <= 52 || element == 255) && namespace <= 4, 3)?;
                test(open > 0 || !any, 4)?;
                test(open < DEEPEST, 5)?;
                (open, any, stage) = (open + 1, true, Stage::Attributes);
                next
            }
            2 => {
                let (&[name, namespace, a, b, c, d], next) = operands(after)?;
                test((name <= 210 || name == 255) && namespace <= 4, 3)?;
                test(stage == Stage::Attributes, 4)?;
                value = Some(string(&mut characters, [a, b, c, d])?);
                next
            }
            3 => {
                let (&[name, important, a, b, c, d], next) = operands(after)?;
                test((name <= 210 || name >= 254) && important <= 1, 3)?;
                test(stage <= Stage::Declarations, 4)?;
                stage = Stage::Declarations;
                value = Some(string(&mut characters, [a, b, c, d])?);
                next
            }
            5 => {
                let (&length, next) = operands(after)?;
                test(open > 0, 4)?;
                stage = Stage::Children;
                string(&mut characters, length)?;
                next
            }
            6 => {
                stage = Stage::Children;
                after
            }
            7 => {
                test(open > 0, 4)?;
                open -= 1;
                stage = Stage::Children;
                after
            }
            _ => return Err(2),
        };
    }
    kinds.end()?;
    test(any && open == 0, 4)?;
    test(characters.is_empty(), 8)
}

/// 0 if the drawing is taken, else the number of what is wrong with it.
pub fn check(script: &[u8], characters: &[u8]) -> u32 {
    read(script, characters).err().unwrap_or(0)
}
