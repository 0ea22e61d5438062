// Histories that begin at every slot: adding to them against the original's CommandHistory, and keys against its loop and
// against the same history begun at slot 0.
use crate::history::LENGTHS;
use crate::keys::{TRIED, apart};
use crate::lent::Lent;
use crate::lines::Mixer;
use crate::model::saved::FIRST;
use crate::model::{ENTRIES, Effect, LINE, Model, Profile};
use crate::part::{Part, hex};
use crate::sequences;
use crate::shell::{PLAIN, walk};
use crate::steps::{Step, go_on};
use crate::streams::Typist;

const SEED: u64 = 0x6265_6775_0000_0001;
const SEED_KEYS: u64 = 0x6265_6775_0000_0002;
const SEED_RUST: u64 = 0x6265_6775_0000_0003;
const SEEDS_ECMA48: [u64; 2] = [0x6265_6775_0000_0004, 0x6265_6775_0000_0005];

/// How many entries a history begins with: none, few, some, all but one, all.
pub const COUNTS: [usize; 6] = [0, 1, 2, 37, 99, 100];
/// So many texts come to each history.
const TEXTS: usize = 300;
/// So many mixed streams make one: of ECMA-48's keys they are longer.
const STREAMS: usize = 12;
const STREAMS_ECMA48: usize = 3;

/// What the entries of a history are made of.
#[derive(Clone, Copy)]
pub enum Kind {
    Ascii,
    Greek,
    Mixed,
}

pub const KINDS: [Kind; 3] = [Kind::Ascii, Kind::Greek, Kind::Mixed];

const ASCII: &str = "abcdefghijklmnopqrstuvwxyz 0123456789-=\"\\";
/// Letters of two bytes, and of three.
const GREEK: &str = "αβγδεζηθικλμνξοπρστυφχψωάέήίόύώς ἀἔὴῦᾧ";

/// A history that begins at this slot, made by hand, with so many of these texts. Those that a history does not take are
/// passed over.
pub fn begun(first: usize, count: usize, mut text: impl FnMut() -> String) -> Model {
    let mut model = Model { first, ..Model::fresh() };
    while model.entries.len() < count {
        model.add(&text());
    }
    model
}

/// A text of such a length.
pub fn text(mixer: &mut Mixer, kind: Kind, (least, longest): (usize, usize)) -> String {
    let length = least + mixer.random.below(longest - least + 1);
    let letters: Vec<char> = match kind {
        Kind::Ascii => ASCII.chars().collect(),
        Kind::Greek => GREEK.chars().collect(),
        Kind::Mixed => return mixer.text(length),
    };
    let mut text = String::with_capacity(LINE);
    while text.len() < length {
        let letter = mixer.random.pick(&letters);
        text.push(if text.len() + letter.len_utf8() <= length { letter } else { 'z' });
    }
    text
}

/// Histories of each count and kind at each slot, to which texts are added and entered in turn, some of them damaged, some
/// equal to the one before: so many that every slot is written more than once.
pub fn histories(part: &mut Part) {
    let mut lent = Lent::new();
    let mut mixer = Mixer::new(SEED);
    for first in 0..ENTRIES {
        for (turn, count) in COUNTS.into_iter().enumerate() {
            for (number, kind) in KINDS.into_iter().enumerate() {
                let lengths = LENGTHS[(first + turn + number) % LENGTHS.len()];
                let model = begun(first, count, || text(&mut mixer, kind, lengths));
                let mut texts: Vec<Vec<u8>> = Vec::new();
                while texts.len() < TEXTS {
                    let mut text = text(&mut mixer, kind, lengths).into_bytes();
                    match mixer.random.below(16) {
                        0 => text = texts.last().cloned().unwrap_or(text),
                        1 => mixer.damage(&mut text),
                        _ => {}
                    }
                    texts.push(text);
                }
                let steps: Vec<Step> = texts.into_iter().enumerate().map(Step::bring).collect();
                go_on(part, &mut lent, model, &steps);
            }
        }
    }
}

/// Histories of each count at each slot, before mixed streams of keys of either profile.
pub fn keys(part: &mut Part) {
    let mut lents = [Lent::new(), Lent::new()];
    let mut mixer = Mixer::new(SEED_KEYS);
    let mut typist = Typist::new(SEED_RUST);
    let [seed, seed_keys] = SEEDS_ECMA48;
    let mut sequences = sequences::Mixer::new(seed, seed_keys);
    for first in 0..ENTRIES {
        for (turn, count) in COUNTS.into_iter().enumerate() {
            let (kind, lengths) = (KINDS[(first + turn) % KINDS.len()], LENGTHS[(first + turn) % LENGTHS.len()]);
            let mut model = begun(first, count, || typable(&text(&mut mixer, kind, lengths)));
            let stream: Vec<u8> = (0..STREAMS).flat_map(|_| typist.stream()).collect();
            let typed: Vec<u8> = model.entries.iter().flat_map(|entry| [entry, &b"\r"[..]].concat()).collect();
            let keys = [&stream[..], &walk(&[&typed[..], &stream].concat())].concat();
            let screens = PLAIN.screens(&[&typed[..], &keys].concat());
            together(part, &mut lents, model.clone(), &keys, &screens[typed.len()..]);
            model.profile = Profile::Ecma48;
            let stream: Vec<u8> = (0..STREAMS_ECMA48).flat_map(|_| sequences.stream()).collect();
            together(part, &mut lents, model, &[&stream[..], &walk(&[&typed[..], &stream].concat())].concat(), &[]);
        }
    }
}

/// The text with a letter for each character that no key types.
pub fn typable(text: &str) -> String {
    text.chars().map(|character| if character.is_ascii_control() { 'x' } else { character }).collect()
}

/// Types keys to a history and to the same one begun at slot 0: both show and leave the same, but for the slots in which it
/// lies. What the original showed, if it was asked, is what they have to show.
fn together(part: &mut Part, lents: &mut [Lent; 2], model: Model, keys: &[u8], screens: &[Vec<u8>]) {
    part.input(&[&[model.first as u8, model.entries.len() as u8], keys].concat());
    let begun = model.first;
    let mut models = [model.clone(), Model { first: 0, ..model }];
    for (lent, model) in lents.iter_mut().zip(&models) {
        lent.hold(&model.state(), &model.slots());
    }
    for (number, &key) in keys.iter().enumerate() {
        let press = if number % TRIED == TRIED - 1 { Lent::press_short } else { Lent::press };
        let [here, there] = &mut models;
        let [a, b] = lents;
        let Some(effect) = press(a, part, here, PLAIN.prompt, key) else { return };
        let Some(other) = press(b, part, there, PLAIN.prompt, key) else { return };
        if !part.note(parted(number, key, begun, [&effect, &other], lents)) {
            return;
        }
        let screen = screens.get(number);
        if !part.note(screen.and_then(|screen| apart(&PLAIN, number, key, effect, screen))) {
            return;
        }
    }
}

/// How a history and the one begun at slot 0 differ in what a key showed or left, if they do. Their first slots have moved alike.
fn parted(number: usize, key: u8, begun: usize, effects: [&Effect; 2], lents: &[Lent; 2]) -> Option<String> {
    let [entries, others] = lents.each_ref().map(Lent::entries);
    let [(state, first), (other, moved)] = lents.each_ref().map(|lent| lent.state().split_at(FIRST));
    let alike = effects[0] == effects[1] && state == other && entries == others;
    let together = usize::from(first[0]) == (begun + usize::from(moved[0])) % ENTRIES;
    (!alike || !together).then(|| {
        let states = format!("begun at {begun}: {}\nbegun at 0: {}", hex(lents[0].state()), hex(lents[1].state()));
        format!("key:      number {number}, {key:02x}\nit goes with the slot at which the history begins\n{states}")
    })
}
