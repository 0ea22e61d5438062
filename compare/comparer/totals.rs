// Totals of saved states: any other than the sum of the entries' lengths is refused by 12, and that one is taken.
use crate::lines::Mixer;
use crate::model::saved::{FIRST, TOTAL};
use crate::model::{LINE, Model};
use crate::part::Part;
use crate::states::{Saved, good, saved};

const SEED: u64 = 0x746F_7461_0000_0001;
/// So many texts come to each history, of up to so many bytes.
const TEXTS: usize = 130;
const LONGEST: [usize; 4] = [1, 5, 40, LINE];
/// The greatest total that there is.
const MOST: u16 = 25_500;
/// How far from the right one a total may be: about it, and about a high byte more or less.
const OFF: [i16; 15] = [0, -1, 1, -2, 2, -3, 3, -255, 255, -256, 256, -257, 257, -512, 512];

/// Each total that two bytes can tell, in every good state.
pub fn every(part: &mut Part) {
    let mut saved = saved(part);
    for model in good() {
        with(&mut saved, &model, 0..=u16::MAX);
    }
}

/// Histories of each count, and full ones whose oldest entries go: before each text the right total, those about it, and others.
pub fn about(part: &mut Part) {
    let mut saved = saved(part);
    let mut mixer = Mixer::new(SEED);
    for longest in LONGEST {
        let mut model = Model::fresh();
        for _ in 0..TEXTS {
            let length = 1 + mixer.random.below(longest);
            (model.line, model.cursor) = (mixer.text(length).into_bytes(), length);
            let totals = OFF.map(|off| model.total().wrapping_add_signed(off)).into_iter().chain(slips(&model));
            with(&mut saved, &model, totals);
            model.add(&mixer.text(length));
        }
    }
}

/// What a slip would give: the low byte first, a byte lost, length bytes counted too, an entry left out or counted twice, whole
/// slots counted, the line counted too; the least, the greatest, one more, and the greatest number.
fn slips(model: &Model) -> Vec<u16> {
    let (total, count) = (model.total(), model.entries.len() as u16);
    let ends = [model.entries.first(), model.entries.last(), Some(&model.line)];
    let counted = ends.into_iter().flatten().map(|entry| entry.len() as u16);
    let other = counted.flat_map(|length| [total.wrapping_sub(length), total.wrapping_add(length)]);
    let bytes = [total.swap_bytes(), total & 0xFF, total & 0xFF00, total >> 8];
    let counts = [total + count, count, count * LINE as u16, count * 256];
    bytes.into_iter().chain(counts).chain(other).chain([0, MOST, MOST + 1, u16::MAX]).collect()
}

/// A state with each of these totals in turn.
fn with(saved: &mut Saved, model: &Model, totals: impl IntoIterator<Item = u16>) {
    let (mut state, slots) = (model.state(), model.slots());
    for total in totals {
        state[TOTAL..FIRST].copy_from_slice(&total.to_be_bytes());
        saved.one(&state, &slots, &[]);
    }
}
