//! Order 2's window: get and patrol, which add to it, and the proposal.

use super::{place, read, Answer, Marks, BLOCK, CHIPS};

/// How many positions are held, and how often one stands among them where it is
/// proposed.
pub const HELD: usize = 64;
const ENOUGH: u8 = 4;

/// The last 64 changed positions, oldest first; 255 before them where there are
/// fewer.
pub type Window = [u8; HELD];

/// Adds the positions in which a block was changed, lowest first.
pub fn add(window: &mut Window, block: &[u8], corrected: &[u8]) {
    let mut changed = [0; BLOCK];
    let mut n = 0;
    for (p, (was, is)) in block.iter().zip(corrected).enumerate() {
        if was != is {
            changed[n] = p as u8;
            n += 1;
        }
    }
    window.copy_within(n.., 0);
    window[HELD - n..].copy_from_slice(&changed[..n]);
}

fn is_changed(answer: Answer) -> bool {
    matches!(answer, Answer::Chips { .. } | Answer::Card { .. })
}

/// Reads block k into the output.
pub fn get(bank: &[u8], k: usize, marks: &[u8], output: &mut [u8], window: &mut Window) -> Answer {
    if output.len() != BLOCK {
        return Answer::Refused(2);
    }
    let block = match place(bank, k) {
        Ok(place) => &bank[place],
        Err(number) => return Answer::Refused(number),
    };
    let answer = read(block, marks, output);
    if is_changed(answer) {
        add(window, block, output);
    }
    answer
}

/// Reads block k and puts the corrected bytes back.
pub fn patrol(bank: &mut [u8], k: usize, marks: &[u8], window: &mut Window) -> Answer {
    let block = match place(bank, k) {
        Ok(place) => &mut bank[place],
        Err(number) => return Answer::Refused(number),
    };
    let mut output = [0; BLOCK];
    let answer = read(block, marks, &mut output);
    if is_changed(answer) {
        add(window, block, &output);
        block.copy_from_slice(&output);
    }
    answer
}

/// The lowest position that stands in the window four times or more, where
/// neither it nor its card is marked.  Err: 6 or 7.
pub fn propose(window: &Window, marks: &[u8]) -> Result<Option<u8>, u8> {
    let marks = Marks::open(marks)?;
    let mut times = [0; 256];
    for &position in window {
        times[position as usize] += 1;
    }
    let unmarked = |p: &usize| !marks.has(*p) && marks.card != Some(*p / CHIPS);
    let found = (0..BLOCK).find(|p| times[*p] >= ENOUGH && unmarked(p));
    Ok(found.map(|p| p as u8))
}
