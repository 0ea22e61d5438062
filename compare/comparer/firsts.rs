// First slots of saved states: one at which the history does not begin is refused by 12, and so is what breaks a rule across
// the end of the buffer; and a history is good wherever it begins.
use crate::begun::{COUNTS, KINDS, begun, text};
use crate::history::LENGTHS;
use crate::lines::Mixer;
use crate::model::saved::{FIRST, SLOT, SLOTS, place_of};
use crate::model::{ENTRIES, LINE, Model};
use crate::part::Part;
use crate::states::{BYTES, Saved, saved};

const SEED: u64 = 0x6669_7273_0000_0001;
/// Where the histories begin that get all first slots.
const BEGINS: [usize; 5] = [0, 1, 42, 57, 99];
/// Histories that lie across the end of the buffer, by first slot and count: all slots used, some not, one not, and one entry
/// behind the end.
const ACROSS: [(usize, usize); 5] = [(1, 100), (42, 80), (50, 99), (57, 44), (99, 2)];
/// The lengths of entries that are hardly ever equal.
const UNLIKE: (usize, usize) = (12, 40);
/// What stands where nothing may: a length, a letter at the beginning of a slot, a byte at its end.
const STRAY: [(usize, u8); 3] = [(0, 1), (1, b'a'), (LINE, 0xFF)];

pub fn compare(part: &mut Part) {
    let mut saved = saved(part);
    let mut mixer = Mixer::new(SEED);
    every_first(&mut saved, &mut mixer);
    every_byte(&mut saved, &mut mixer);
    for first in 0..ENTRIES {
        equal_ones(&mut saved, &mut mixer, first);
        stray_bytes(&mut saved, &mut mixer, first);
        shifted_ones(&mut saved, &mut mixer, first);
    }
}

/// Each of the 256 first slots that a byte can tell: in states that lie as another says, and in states that lie as it says,
/// with what is above 99 taken round the end.
fn every_first(saved: &mut Saved, mixer: &mut Mixer) {
    for (turn, count) in COUNTS.into_iter().enumerate() {
        let (kind, lengths) = (KINDS[turn % KINDS.len()], LENGTHS[turn % LENGTHS.len()]);
        let model = begun(0, count, || text(mixer, kind, lengths));
        for first in BEGINS {
            let model = Model { first, ..model.clone() };
            let (state, slots) = (model.state(), model.slots());
            (0..=255).for_each(|byte| saved.changed(&state, &slots, FIRST, byte));
        }
        for byte in 0..=255 {
            let first = usize::from(byte);
            let moved = Model { first: first % ENTRIES, ..model.clone() };
            let mut state = moved.state();
            state[FIRST] = byte;
            saved.known(first < ENTRIES, &state, &moved.slots(), &[]);
        }
    }
}

/// Every byte of the slots of histories that lie across the end changed: to its neighbour and to one of some others, in turn.
fn every_byte(saved: &mut Saved, mixer: &mut Mixer) {
    for (turn, (first, count)) in ACROSS.into_iter().enumerate() {
        let (kind, lengths) = (KINDS[turn % KINDS.len()], LENGTHS[turn % LENGTHS.len()]);
        let model = begun(first, count, || text(mixer, kind, lengths));
        let (state, mut slots) = (model.state(), model.slots());
        for place in 0..SLOTS {
            let (neighbour, other) = (slots[place] ^ 1, BYTES[place / 7 % BYTES.len()]);
            saved.put(&state, &mut slots, place, &[if place % 3 == 0 { neighbour } else { other }]);
        }
    }
}

/// Equal neighbours in the last slot and slot 0 are bad. The newest and the oldest of a full history may be equal, though
/// their slots adjoin; begun one slot further on it has them as neighbours.
fn equal_ones(saved: &mut Saved, mixer: &mut Mixer, first: usize) {
    let model = begun(first, ENTRIES, || text(mixer, KINDS[first % KINDS.len()], UNLIKE));
    // the entry in the last slot, which is the newest if the history begins at slot 0
    let last = ENTRIES - 1 - first;
    for count in [last + 2, (last + ENTRIES) / 2, ENTRIES].into_iter().filter(|&count| first > 0 && last + 2 <= count) {
        let mut entries = model.entries[..count].to_vec();
        entries[last + 1] = entries[last].clone();
        let model = Model { entries, place: 0, ..model.clone() };
        saved.known(false, &model.state(), &model.slots(), &model.entries[last]);
    }
    let mut entries = model.entries.clone();
    entries[ENTRIES - 1] = entries[0].clone();
    let ends = Model { entries, ..model };
    let (mut state, slots) = (ends.state(), ends.slots());
    saved.known(true, &state, &slots, &ends.entries[0]);
    state[FIRST] = ((first + 1) % ENTRIES) as u8;
    saved.known(false, &state, &slots, &ends.entries[0]);
}

/// Stray bytes in unused slots: in the one behind the newest entry and in the one before the oldest, and one in each.
fn stray_bytes(saved: &mut Saved, mixer: &mut Mixer, first: usize) {
    for count in COUNTS.into_iter().filter(|&count| count < ENTRIES) {
        let model = begun(first, count, || text(mixer, KINDS[first % KINDS.len()], UNLIKE));
        let (state, mut slots) = (model.state(), model.slots());
        let ends = [count, ENTRIES - 1].into_iter().flat_map(|number| STRAY.map(|stray| (number, stray)));
        let each = (count..ENTRIES).map(|number| (number, ((number * 37 + first) % SLOT, 1)));
        for (number, (at, byte)) in ends.chain(each) {
            let place = place_of(first, number) + at;
            slots[place] = byte;
            saved.known(false, &state, &slots, &[&(place as u32).to_be_bytes()[..], &[byte]].concat());
            slots[place] = 0;
        }
    }
}

/// Entries that lie one slot further on, or back, or half round, than the first slot says: bad, unless all slots are used. A full
/// history may begin in any slot, if no neighbours are equal then.
fn shifted_ones(saved: &mut Saved, mixer: &mut Mixer, first: usize) {
    for count in COUNTS.into_iter().filter(|&count| count > 0) {
        let model = begun(first, count, || text(mixer, KINDS[first % KINDS.len()], UNLIKE));
        for by in [1, ENTRIES / 2, ENTRIES - 1] {
            let mut slots = model.slots();
            slots.rotate_right(by * SLOT);
            saved.known(count == ENTRIES, &model.state(), &slots, &[by as u8]);
        }
    }
}
