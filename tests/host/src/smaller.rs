//! Makes a drawing smaller that shows a difference.
use std::ops::Range;

pub type Parts = Vec<[Range<usize>; 2]>;

/// Parts of a list of bytes, each of `size` bytes but the last; `side` 0 is the script, 1 the characters.
fn pieces(length: usize, size: usize, side: usize) -> Parts {
    let piece = |at: usize| {
        let mut both = [0..0, 0..0];
        both[side] = at..(at + size).min(length);
        both
    };
    (0..length).step_by(size).map(piece).collect()
}

/// Each command and its string, as far as they can be told.
pub fn commands(script: &[u8], characters: &[u8]) -> Parts {
    let (mut at, mut taken) = (0, 0);
    let mut all = Vec::new();
    while at < script.len() {
        let (size, length_at) = match script[at] {
            1 => (3, None),
            2 | 3 => (7, Some(3)),
            4 => (10, None),
            5 => (5, Some(1)),
            _ => (1, None),
        };
        let word = length_at.and_then(|k| script.get(at + k..at + k + 4)).and_then(|w| w.try_into().ok());
        let length = word.map_or(0, u32::from_le_bytes) as usize;
        let ends = [(at + size).min(script.len()), (taken + length).min(characters.len())];
        all.push([at..ends[0], taken..ends[1]]);
        [at, taken] = ends;
    }
    all
}

/// A smaller drawing of which `wrong` holds too: pieces and commands are removed as long as any can be, until that has read
/// so many bytes.
pub fn smaller(script: &[u8], characters: &[u8], wrong: impl Fn(&[u8], &[u8]) -> bool) -> (Vec<u8>, Vec<u8>) {
    let mut both = [script.to_vec(), characters.to_vec()];
    let mut size = script.len().max(characters.len());
    let mut left: usize = 500_000_000;
    while size > 0 {
        let mut removed = false;
        let parts = [pieces(both[0].len(), size, 0), pieces(both[1].len(), size, 1), commands(&both[0], &both[1])].concat();
        // From the end on, so that what is left to try keeps its place.
        for part in parts.into_iter().rev() {
            let fits = part[0].end <= both[0].len() && part[1].end <= both[1].len();
            if left == 0 || !fits {
                continue;
            }
            left = left.saturating_sub(both[0].len() + both[1].len());
            let mut next = both.clone();
            next[0].drain(part[0].clone());
            next[1].drain(part[1].clone());
            if wrong(&next[0], &next[1]) {
                both = next;
                removed = true;
            }
        }
        if !removed {
            size /= 2;
        }
    }
    let [script, characters] = both;
    (script, characters)
}
