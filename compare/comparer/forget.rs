// Forgetting one entry: every number in histories of all kinds, wherever they begin, against the model.
use crate::begun::{COUNTS, KINDS, text};
use crate::history::LENGTHS;
use crate::lent::Lent;
use crate::lines::{Mixer, every};
use crate::model::saved::SLOT;
use crate::model::{ENTRIES, LINE, Model};
use crate::part::Part;
use crate::states::good;

const SEED: u64 = 0x666F_7267_0000_0001;
/// The short histories have up to so many entries.
const SHORT: usize = 7;
/// The entries of the full ones, by their numbers, have these lengths.
const FULL: [fn(usize) -> usize; 4] = [|_| 1, |_| 20, |_| LINE, |number| 1 + number * 37 % LINE];

/// States to forget entries of.
struct Forgetting<'a> {
    part: &'a mut Part,
    lent: Lent,
    /// Good states whose lines, cursors, modes and profiles come in turn.
    editors: Vec<Model>,
    turn: usize,
}

impl Forgetting<'_> {
    /// A history with the next editor and the next place.
    fn next(&mut self, first: usize, entries: Vec<Vec<u8>>) -> Model {
        self.turn += 1;
        let place = self.turn % (entries.len() + 1);
        Model { first, entries, place, ..self.editors[self.turn % self.editors.len()].clone() }
    }

    /// Each entry of a history, and numbers that none has.
    fn each(&mut self, first: usize, entries: Vec<Vec<u8>>) {
        let model = self.next(first, entries);
        let count = model.entries.len();
        for number in (0..count).chain(beyond(count, self.turn % count.max(1))) {
            self.one(&model, number);
        }
    }

    /// Forgets one entry, and gives back what has to be left. The input is the first slot, the count, the number in eight
    /// bytes, and the entries.
    fn one(&mut self, model: &Model, number: usize) -> Model {
        let ends = [model.first as u8, model.entries.len() as u8];
        self.part.input(&[&ends[..], &number.to_be_bytes(), &model.entries.concat()].concat());
        self.lent.hold(&model.state(), &model.slots());
        let mut left = model.clone();
        self.lent.forget(self.part, &mut left, number);
        left
    }

    /// Forgets an entry whose letter no other has. Then no slot has that letter, and as many have that of the entry
    /// before it, round the end, as there are such entries.
    fn without_trace(&mut self, first: usize, entries: &[Vec<u8>], number: usize) {
        let model = self.next(first, entries.to_vec());
        let left = self.one(&model, number);
        for letter in [number, (number + ENTRIES - 1) % ENTRIES].map(|number| entries[number][0]) {
            let held = left.entries.iter().filter(|entry| entry.contains(&letter)).count();
            let found = self.lent.slots().chunks(SLOT).filter(|slot| slot[1..].contains(&letter)).count();
            let told = || format!("letter:   {letter:02x}, in {held} entries and in {found} slots");
            self.part.note((found != held).then(told));
        }
    }
}

fn forgetting(part: &mut Part) -> Forgetting<'_> {
    let editors = good().into_iter().map(|model| Model { entries: Vec::new(), ..model }).collect();
    Forgetting { part, lent: Lent::new(), editors, turn: 0 }
}

/// Numbers that no entry has in a history of so many: those behind the newest, the greatest, those about the greatest of
/// 8, 16 and 32 bits, and such as have the low bits of this entry's number.
pub fn beyond(count: usize, entry: usize) -> impl Iterator<Item = usize> {
    let about = [8, 16, 32].into_iter().flat_map(|bits| [(1 << bits) - 1, 1 << bits]);
    let alike = [8, 16, 31, 32, 63].into_iter().map(move |bits| (1 << bits) + entry);
    [count, count + 1, usize::MAX].into_iter().chain(about).chain(alike)
}

/// A history of so many mixed texts. One in three is the one before the newest: they come together if the newest goes.
pub fn coming_again(mixer: &mut Mixer, first: usize, count: usize, text: impl Fn(&mut Mixer) -> String) -> Model {
    let mut model = Model { first, ..Model::fresh() };
    while model.entries.len() < count {
        let before = model.entries.iter().rev().nth(1).filter(|_| mixer.random.once_in(3));
        let again = before.map(|entry| String::from_utf8_lossy(entry).into_owned());
        model.add(&again.unwrap_or_else(|| text(mixer)));
    }
    model
}

/// Histories of up to 7 of three texts, in all ways, at each slot. The texts go with the slot: letters, such as differ in
/// white space, characters of two to four bytes, and the longest.
pub fn short_ones(part: &mut Part) {
    let mut forgetting = forgetting(part);
    let longest = ["y", "z", ""].map(|end| "x".repeat(LINE - 1) + end);
    let texts = [["a", "b", "c"], ["log", "log ", " log"], ["é", "語", "😀"]].map(|texts| texts.map(str::to_string));
    let texts: Vec<[Vec<u8>; 3]> =
        texts.into_iter().chain([longest]).map(|texts| texts.map(String::into_bytes)).collect();
    for first in 0..ENTRIES {
        let [a, b, c] = &texts[first % texts.len()];
        every(&[b"a", b"b", b"c"], SHORT, &mut |letters| {
            if letters.windows(2).all(|pair| pair[0] != pair[1]) {
                let entry = |letter: &u8| match letter {
                    b'a' => a.clone(),
                    b'b' => b.clone(),
                    _ => c.clone(),
                };
                forgetting.each(first, letters.iter().map(entry).collect());
            }
        });
    }
}

/// Histories of each count and kind at each slot.
pub fn every_slot(part: &mut Part) {
    let mut forgetting = forgetting(part);
    let mut mixer = Mixer::new(SEED);
    for first in 0..ENTRIES {
        for (turn, count) in COUNTS.into_iter().enumerate() {
            for (number, kind) in KINDS.into_iter().enumerate() {
                let lengths = LENGTHS[(first + turn + number) % LENGTHS.len()];
                let model = coming_again(&mut mixer, first, count, |mixer| text(mixer, kind, lengths));
                forgetting.each(first, model.entries);
            }
        }
    }
}

/// Full histories whose entries have each a letter of its own, at each slot. Each entry is forgotten as it is, and between
/// equal ones; round the end, beside the oldest and the newest, these do not come together.
pub fn full_ones(part: &mut Part) {
    let mut forgetting = forgetting(part);
    let letters: Vec<u8> = (1..0x80).filter(|&byte| !char::from(byte).is_whitespace()).take(ENTRIES).collect();
    for first in 0..ENTRIES {
        for length in FULL {
            let mut entries: Vec<Vec<u8>> =
                letters.iter().enumerate().map(|(number, &letter)| vec![letter; length(number)]).collect();
            for number in 0..ENTRIES {
                forgetting.without_trace(first, &entries, number);
                let [before, behind] = [number + ENTRIES - 1, number + 1].map(|number| number % ENTRIES);
                let equal = entries[before].clone();
                let own = std::mem::replace(&mut entries[behind], equal);
                forgetting.without_trace(first, &entries, number);
                entries[behind] = own;
            }
        }
    }
}
