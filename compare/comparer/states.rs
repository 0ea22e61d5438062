// Saved states, good and damaged: each damaged one is refused by 12 and kept, and each good one is taken.
use crate::forget::beyond;
use crate::lent::{Lent, NONE, Room};
use crate::lines::{Mixer, every_character};
use crate::model::answers::BAD_STATE;
use crate::model::saved::{EDITOR, FIRST, HEAD, PARAMETER, PROFILE, READ, SLOT, SLOTS, STATE, TOTAL, place_of};
use crate::model::{ENTRIES, LINE, Mode, Model, Profile};
use crate::part::Part;

const SEED: u64 = 0x7374_6174_0000_0001;
const SEED_DAMAGED: u64 = 0x7374_6174_0000_0002;
const DAMAGED: usize = 100_000;
const PROMPT: &[u8] = b"axvisor:$ ";
/// The keys that come in turn.
pub const KEYS: [u8; 13] = [b'x', b'\r', 0x1B, b'A', 0x7F, b'B', 0xC3, 0x01, b'~', b'H', b'[', b'1', b'F'];
/// Lengths that are no state's: without the first slot, the total and what tells of keys, without the first two of these, and
/// without the first slot alone.
const WITHOUT_PROFILE: usize = 260;
const WITHOUT_TOTAL: usize = 263;
const WITHOUT_FIRST: usize = 265;
/// What bytes of the slots are changed to, besides their neighbours.
pub const BYTES: [u8; 5] = [0, b' ', b'a', 0x85, 0xFF];
/// The numbers of entries to forget that come in turn.
const FORGOTTEN: [usize; 7] = [0, 1, 2, ENTRIES - 1, ENTRIES, 1 << 32, usize::MAX];
/// What a byte of a bad state is changed by, where every number is tried.
const CHANGES: [u8; 4] = [0x01, 0x02, 0x80, 0xFF];
/// What a bad state is lent: all that it needs, and a prompt, a text and buffers that would be refused as well.
const LENT: [(&[u8], &[u8], Room); 2] =
    [(PROMPT, b"a", Room { line: LINE, screen: 400 }), (b"\xFF", &[0xFF; 300], NONE)];

/// Calls on saved states, with keys that come in turn.
pub struct Saved<'a> {
    part: &'a mut Part,
    lent: Lent,
    turn: usize,
}

impl Saved<'_> {
    /// A state, good or bad, as it is, and with the total put right where it is not that of the slots: what else is bad is then
    /// refused without it.
    fn check(&mut self, state: &[u8], slots: &[u8]) {
        self.both(state, slots, &[]);
    }

    /// The same. In the input what was put into the slots stands behind the state.
    fn both(&mut self, state: &[u8], slots: &[u8], put: &[u8]) {
        self.one(state, slots, put);
        if let Some(state) = righted(state, slots) {
            self.calls(&state, slots, put);
        }
    }

    /// A state as it is, with the next key.
    pub fn one(&mut self, state: &[u8], slots: &[u8], put: &[u8]) {
        self.turn += 1;
        self.calls(state, slots, put);
    }

    /// A state of which it is known whether it is good, with the total of its slots: the model has to know it too.
    pub fn known(&mut self, good: bool, state: &[u8], slots: &[u8], put: &[u8]) {
        let state = righted(state, slots).unwrap_or_else(|| state.to_vec());
        self.one(&state, slots, put);
        let read = Model::read(&state, slots).is_some();
        self.part.note((read != good).then(|| format!("the model takes it: {read}, and it has to be taken: {good}")));
    }

    /// A key, a text and an entry to forget on a state. Bad ones are refused before the prompt, the buffers, the text and
    /// the number are looked at.
    fn calls(&mut self, state: &[u8], slots: &[u8], put: &[u8]) {
        self.part.input(&[state, put].concat());
        let (key, number) = (KEYS[self.turn / 2 % KEYS.len()], FORGOTTEN[self.turn / 2 % FORGOTTEN.len()]);
        self.lent.hold(state, slots);
        let Some(mut model) = Model::read(state, slots) else {
            let (prompt, text, room) = LENT[self.turn % LENT.len()];
            self.lent.refuse(self.part, prompt, key, room, BAD_STATE);
            self.lent.adding(self.part, text, BAD_STATE);
            self.lent.forgetting(self.part, number, BAD_STATE);
            return;
        };
        let pressed = self.lent.press_short(self.part, &mut model, PROMPT, key).is_some();
        _ = pressed && self.lent.add(self.part, &mut model, b"a b") && self.lent.forget(self.part, &mut model, number);
    }

    /// A state with one byte changed.
    pub fn changed(&mut self, state: &[u8], slots: &[u8], place: usize, byte: u8) {
        let mut state = state.to_vec();
        state[place] = byte;
        self.check(&state, slots);
    }

    /// A state with another mode, profile, number of bytes read and parameter.
    fn keyed(&mut self, state: &[u8], slots: &[u8], keys: [u8; 4]) {
        let mut state = state.to_vec();
        put_keys(&mut state, keys);
        self.check(&state, slots);
    }

    /// Slots with some bytes put at a place. The input is the state, and behind it the place, in four bytes, and the bytes.
    pub fn put(&mut self, state: &[u8], slots: &mut [u8], place: usize, bytes: &[u8]) {
        let before = slots[place..][..bytes.len()].to_vec();
        slots[place..][..bytes.len()].copy_from_slice(bytes);
        self.both(state, slots, &[&(place as u32).to_be_bytes(), bytes].concat());
        slots[place..][..bytes.len()].copy_from_slice(&before);
    }
}

pub fn saved(part: &mut Part) -> Saved<'_> {
    Saved { part, lent: Lent::new(), turn: 0 }
}

/// The state with the total of as many slots as it counts, from its first slot on, if it has another and so many are there. A
/// first slot that is too great is gone on from round the end: all but that is then right.
fn righted(state: &[u8], slots: &[u8]) -> Option<Vec<u8>> {
    let (count, first) = (usize::from(*state.get(EDITOR)?), usize::from(*state.get(FIRST)?));
    if count > ENTRIES || slots.len() != SLOTS {
        return None;
    }
    let total: u16 = (0..count).map(|number| u16::from(slots[place_of(first, number)])).sum();
    let mut righted = state.to_vec();
    righted[TOTAL..FIRST].copy_from_slice(&total.to_be_bytes());
    (righted != state).then_some(righted)
}

/// Good states: fresh; a line of three characters with the cursor inside and three entries; a full line and a full history of
/// the longest lines; a full history of mixed lines that begins at slot 57, and an escape begun; with the keys of ECMA-48 a
/// sequence of one byte in the second of these, whose entries then lie in the last two slots and slot 0, and the longest that
/// goes on, with no entry, at the last slot.
pub fn good() -> Vec<Model> {
    let entries = |texts: &[&str]| texts.iter().map(|text| text.as_bytes().to_vec()).collect();
    let few = Model {
        line: b"a\xC3\xA9b".to_vec(),
        cursor: 2,
        entries: entries(&["a", " b", "\u{E9}"]),
        place: 1,
        ..Model::fresh()
    };
    let longest = (0..100).map(|number| vec![b'0' + number % 7; LINE]).collect();
    let full = Model { line: vec![b'l'; LINE], cursor: LINE, entries: longest, place: 100, ..Model::fresh() };
    let mut mixer = Mixer::new(SEED);
    let mut mixed = Model { mode: Mode::Bracket, ..Model::fresh() };
    while mixed.entries.len() < 100 {
        let length = 1 + mixer.random.below(LINE);
        mixed.add(&mixer.text(length));
    }
    (mixed.place, mixed.first) = (50, 57);
    let one = Model { first: 98, ..sequence(&few, b"3") };
    let none = Model { first: 99, ..sequence(&Model::fresh(), b"1;5 ?0123456789") };
    vec![Model::fresh(), few, full, mixed, one, none]
}

/// The same with the keys of ECMA-48, behind ESC `[` and these bytes.
fn sequence(model: &Model, bytes: &[u8]) -> Model {
    Model { profile: Profile::Ecma48, mode: Mode::Sequence, sequence: bytes.to_vec(), ..model.clone() }
}

/// Every number of editor and history in all ways, every byte of the line in some.
pub fn heads(part: &mut Part) {
    let mut saved = saved(part);
    for model in good() {
        let (state, slots) = (model.state(), model.slots());
        for place in (0..HEAD).chain(PROFILE..STATE) {
            (0..=255).for_each(|byte| saved.changed(&state, &slots, place, byte));
        }
        for place in HEAD..PROFILE {
            [0, 1, b'a', 0xFF].into_iter().for_each(|byte| saved.changed(&state, &slots, place, byte));
        }
    }
}

/// Every mode and profile with every length of the line, and cursors and places about the length and the count.
pub fn pairs(part: &mut Part) {
    let mut saved = saved(part);
    for (length, count) in (0..=LINE).map(|length| (length, length % 101)) {
        let entries = (0..count).map(|number| vec![b'0' + number as u8]).collect();
        let model = Model { line: vec![b'a'; length], entries, ..Model::fresh() };
        let slots = model.slots();
        for (cursor, place) in [(0, 0), (length, count), (length + 1, count), (length, count + 1), (LINE, LINE)] {
            for (mode, profile) in (0..5).flat_map(|mode| [(mode, 0), (mode, 1)]) {
                let mut state = model.state();
                [state[0], state[2], state[EDITOR + 1]] = [mode, cursor as u8, place as u8];
                state[PROFILE] = profile;
                saved.check(&state, &slots);
            }
        }
    }
}

/// What tells of keys: modes, profiles, bytes read and parameters, good and bad ones each with each, in several states; every
/// mode with every profile; and in a sequence every number of bytes read with every parameter.
pub fn sequences(part: &mut Part) {
    let mut saved = saved(part);
    for model in good() {
        let (state, slots) = (model.state(), model.slots());
        for (mode, profile) in
            [0, 1, 2, 3, 4, 255].into_iter().flat_map(|mode| [0, 1, 2, 255].map(|profile| (mode, profile)))
        {
            for read in (0..18).chain([254, 255]) {
                for parameter in (0..11).chain(*b"1378").chain([254, 255]) {
                    saved.keyed(&state, &slots, [mode, profile, read, parameter]);
                }
            }
        }
    }
    let few = &good()[1];
    let (state, slots) = (few.state(), few.slots());
    for (one, other) in (0..=255).flat_map(|one| (0..=255).map(move |other| (one, other))) {
        saved.keyed(&state, &slots, [one, other, 0, 0]);
        saved.keyed(&state, &slots, [3, 1, one, other]);
    }
}

/// Good states of both profiles, in every mode and within sequences, with one to three of their bytes changed: most of those that
/// tell of keys, to numbers that are good somewhere.
pub fn mixed(part: &mut Part) {
    let mut saved = saved(part);
    let mut mixer = Mixer::new(SEED_DAMAGED);
    let good = good();
    for _ in 0..DAMAGED {
        let random = &mut mixer.random;
        let model = &good[random.below(good.len())];
        let mut state = model.state();
        let told = [[0, 0, 0, 0], [1, 0, 0, 0], [2, 0, 0, 0], [1, 1, 0, 0], [3, 1, 0, 0], [3, 1, 1, 7], [3, 1, 9, 255]];
        put_keys(&mut state, random.pick(&told));
        for _ in 0..1 + random.below(3) {
            let any = random.below(STATE);
            let numbers = [0, 1, 2, PROFILE, READ, PARAMETER, EDITOR, EDITOR + 1, TOTAL, TOTAL + 1, FIRST, any];
            let place = random.pick(&numbers);
            let any = random.below(256) as u8;
            state[place] = random.pick(&[0, 1, 2, 3, 4, 8, 15, 16, 99, 100, 255, any]);
        }
        saved.check(&state, &model.slots());
    }
}

/// Puts mode, profile, number of bytes read and parameter into a state.
fn put_keys(state: &mut [u8], [mode, profile, read, parameter]: [u8; 4]) {
    [state[0], state[PROFILE], state[READ], state[PARAMETER]] = [mode, profile, read, parameter];
}

/// Every byte of the slots changed: to its neighbour and to one of five others, in turn.
pub fn slots(part: &mut Part) {
    let mut saved = saved(part);
    for model in good() {
        let (state, mut slots) = (model.state(), model.slots());
        for place in 0..SLOTS {
            let (neighbour, other) = (slots[place] ^ 1, BYTES[place / 7 % BYTES.len()]);
            let byte = if place % 3 == 0 { neighbour } else { other };
            saved.put(&state, &mut slots, place, &[byte]);
        }
    }
}

/// In every slot: another's entry, blank entries of all white space there is, ill-formed entries, none, and one cut short.
pub fn entries(part: &mut Part) {
    let mut saved = saved(part);
    let white: Vec<String> = every_character().filter(|c| c.is_whitespace()).map(|c| c.to_string()).collect();
    let longest = white.iter().map(|white| white.repeat(LINE / white.len()));
    let mut texts: Vec<Vec<u8>> = white.iter().cloned().chain(longest).map(String::into_bytes).collect();
    texts.extend([b"".to_vec(), b"\xC3".to_vec(), b"a\xED\xA0\x80".to_vec(), b" \xFF".to_vec(), vec![0x80; LINE]]);
    for model in good().iter().skip(1) {
        let (state, mut slots) = (model.state(), model.slots());
        for number in 0..model.entries.len() {
            let at = place_of(model.first, number);
            for from in [number.saturating_sub(1), number, (number + 1) % model.entries.len()] {
                let slot = slots[place_of(model.first, from)..][..SLOT].to_vec();
                saved.put(&state, &mut slots, at, &slot);
            }
            for text in &texts {
                let mut slot = [&[text.len() as u8], &text[..]].concat();
                slot.resize(SLOT, 0);
                saved.put(&state, &mut slots, at, &slot);
            }
        }
    }
}

/// Bad states of many kinds, whatever is to be forgotten: each number that an entry may have, and some that none has.
pub fn forgetting(part: &mut Part) {
    let mut lent = Lent::new();
    for (state, slots) in good().iter().flat_map(damaged).filter(|(state, slots)| Model::read(state, slots).is_none()) {
        lent.hold(&state, &slots);
        for number in (0..ENTRIES).chain(beyond(ENTRIES, ENTRIES / 2)) {
            part.input(&[&state[..], &number.to_be_bytes()].concat());
            lent.forgetting(part, number, BAD_STATE);
        }
    }
}

/// A state and its slots, changed: another length; another byte in each number of the state; in some slots another first,
/// second or last byte. Some of them are good.
fn damaged(model: &Model) -> Vec<(Vec<u8>, Vec<u8>)> {
    let with = |damage: &dyn Fn(&mut Vec<u8>, &mut Vec<u8>)| {
        let (mut state, mut slots) = (model.state().to_vec(), model.slots());
        damage(&mut state, &mut slots);
        (state, slots)
    };
    let mut list = vec![
        with(&|state, _| state.truncate(STATE - 1)),
        with(&|state, _| state.push(0)),
        with(&|_, slots| slots.truncate(SLOTS - 1)),
        with(&|_, slots| slots.push(0)),
    ];
    for place in (0..HEAD).chain(PROFILE..STATE) {
        list.extend(CHANGES.map(|change| with(&|state, _| state[place] ^= change)));
    }
    for slot in (0..SLOTS).step_by(7 * SLOT) {
        list.extend([slot, slot + 1, slot + LINE].map(|place| with(&|_, slots| slots[place] ^= 1)));
    }
    list
}

/// States and slots of other lengths, to keys, texts and entries to forget, and to `fresh`, with each profile and without;
/// good states cut off at each place.
pub fn lengths(part: &mut Part) {
    let mut saved = saved(part);
    let without = [WITHOUT_PROFILE, EDITOR, WITHOUT_TOTAL, WITHOUT_TOTAL + 1, WITHOUT_FIRST];
    for state in [0, 1, HEAD, PROFILE].into_iter().chain(without).chain([STATE, STATE + 1]) {
        for slots in [0, 1, SLOT, SLOTS - SLOT, SLOTS - 1, SLOTS, SLOTS + 1] {
            saved.check(&vec![0; state], &vec![0; slots]);
            saved.part.input(&[]);
            saved.lent.fresh(saved.part, state, slots);
            (0..=255).for_each(|profile| _ = saved.lent.fresh_with(saved.part, profile, state, slots));
        }
    }
    for model in good() {
        let (state, slots) = (model.state(), model.slots());
        (0..STATE).for_each(|length| saved.check(&state[..length], &slots));
    }
}
