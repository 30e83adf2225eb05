//! Questions about states that no call gave: zeros, places outside the file or the buffer, made-up numbers.

use crate::answer::Question;
use crate::model::{self, State};
use crate::random::Random;
use crate::sheets;

/// Numbers that are 1 in their lowest bits alone.
const WIDE: u64 = (1 << 32) + 1;
const WIDEST: u64 = (1 << 63) + 1;

/// Second numbers: of one that is open, of one that was refused on opening, and of none.
const SECOND: &[u64] =
    &[0, 1, 1, 1, 1, 2, 19, 20, 21, 22, 23, 24, 25, 32, 255, 256, 257, 65_535, 65_536, 65_537, WIDE, WIDEST, u64::MAX];

/// Each of them beside zeros, then states of chance: a reader's call on each, and a record put and the end written.
pub fn states(random: &mut Random, corpus: &[Vec<u8>], count: usize, ask: &mut impl FnMut(Question)) {
    for file in corpus {
        for place in [0, 100] {
            for &second in SECOND {
                let mut state = [0; model::STATE];
                state[0] = place;
                state[1] = second;
                about(random, &state, file, ask);
            }
        }
    }
    for _ in 0..count {
        let file = sheets::sheet(random, corpus);
        let state = state(random, &file);
        about(random, &state, &file, ask);
    }
}

/// A state of chance. What is open has zeros after its second number, but for what is left over, so that it stands before the first record, wherever
/// it is.
fn state(random: &mut Random, file: &[u8]) -> State {
    let mut state = [0; model::STATE];
    let length = file.len();
    let at = random.below(length + 1);
    let line = file[..at].iter().rposition(|&c| c == b'\n').map_or(0, |end| end + 1);
    let places =
        [0, 8, 8, 100, at, line, line, length.saturating_sub(1), length, length + 1, 16_384, 1 << 32, usize::MAX];
    state[0] = *random.of(&places) as u64;
    state[1] = *random.of(SECOND);
    if random.once_in(2) {
        let filled = if state[1] == 1 { model::STATE_LEFT } else { 2..model::STATE };
        state[filled].fill_with(|| random.any() >> random.below(64));
    }
    state
}

fn about(random: &mut Random, state: &State, file: &[u8], ask: &mut impl FnMut(Question)) {
    let numbers = |bytes: &mut Vec<u8>, numbers: &[u64]| numbers.iter().for_each(|n| bytes.extend(n.to_le_bytes()));
    let mut bytes = Vec::new();
    numbers(&mut bytes, state);
    bytes.extend(file);
    ask(Question { asked: b'N', bytes });
    // A first record, one that is none, and their room.
    let room: u32 = *random.of(&[0, 8, 9, 30, 200, 16_384, 16_500]);
    let mut record = [0; model::RECORD];
    record[0] = *random.of(&[1, 1, 1, 5, 201, 0]);
    record[2] = 4;
    let mut bytes = room.to_le_bytes().to_vec();
    numbers(&mut bytes, state);
    numbers(&mut bytes, &record);
    bytes.extend(b"1,AB");
    ask(Question { asked: b'K', bytes });
}
