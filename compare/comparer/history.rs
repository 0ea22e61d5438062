// Adding to a history: the library against the original's CommandHistory, and its refusals against the model.
use crate::lent::Lent;
use crate::lines::{Mixer, about_white_space, every_line};
use crate::model::{ENTRIES, LINE, Model, saved};
use crate::part::Part;
use original::Original;

const SHORT: usize = 4;
const MIXED: usize = 3_000;
const FULL: usize = 400;
const SEED: u64 = 0x6869_7374_0000_0001;
const SEED_FULL: u64 = 0x6869_7374_0000_0002;
pub const PROMPT: &[u8] = b"axvisor:$ ";
/// The least and the greatest length of the texts of a history.
pub const LENGTHS: [(usize, usize); 5] = [(1, 3), (1, 20), (1, LINE), (LINE - 2, LINE), (LINE, LINE)];

/// Adds texts to a fresh history of both.
fn check(part: &mut Part, lent: &mut Lent, texts: &[Vec<u8>]) {
    check_by(part, lent, texts, Lent::add);
}

/// Brings texts to a fresh history of both. The original takes well-formed ones of up to 255 bytes; then both are read through.
fn check_by(
    part: &mut Part,
    lent: &mut Lent,
    texts: &[Vec<u8>],
    mut bring: impl FnMut(&mut Lent, &mut Part, &mut Model, &[u8]) -> bool,
) {
    part.input(&texts.concat());
    let mut theirs = Original::history();
    let mut model = Model::fresh();
    let fresh = lent.fresh(part, saved::STATE, saved::SLOTS);
    if !fresh || !texts.iter().all(|text| bring(lent, part, &mut model, text)) {
        return;
    }
    let well_formed = texts.iter().filter(|text| text.len() <= LINE).filter_map(|text| str::from_utf8(text).ok());
    well_formed.for_each(|text| theirs.add_command(text.to_string()));
    let newest_first: Vec<String> = std::iter::from_fn(|| theirs.previous().cloned()).collect();
    let oldest_first: Vec<&String> = newest_first.iter().rev().collect();
    part.same(&oldest_first, &lent.entries());
}

/// Every short line before, between and behind another text, and behind itself.
pub fn short_texts(part: &mut Part) {
    let mut lent = Lent::new();
    every_line(SHORT, &mut |line| {
        let (line, other) = (line.to_vec(), b"a".to_vec());
        check(part, &mut lent, &[line.clone(), other, line.clone(), line]);
    });
}

/// Each character of Unicode that is white space, and some that are not: alone, with white space about it, and with a letter.
pub fn blank_texts(part: &mut Part) {
    let mut lent = Lent::new();
    for character in about_white_space() {
        let texts =
            [format!("{character}"), format!(" {character}\t"), format!("{character}a"), format!("a{character}")];
        check(part, &mut lent, &texts.map(String::into_bytes));
    }
}

/// Up to 130 mixed texts of up to 260 bytes, some of them damaged, some equal to the one before.
pub fn mixed_texts(part: &mut Part) {
    let mut lent = Lent::new();
    let mut mixer = Mixer::new(SEED);
    for _ in 0..MIXED {
        let mut texts: Vec<Vec<u8>> = Vec::new();
        let most = mixer.random.pick(&[3, 30, 130]);
        for _ in 0..mixer.random.below(most + 1) {
            let text = match (mixer.random.below(8), texts.last()) {
                (0, Some(last)) => last.clone(),
                _ => text(&mut mixer),
            };
            texts.push(text);
        }
        check(part, &mut lent, &texts);
    }
}

fn text(mixer: &mut Mixer) -> Vec<u8> {
    let longest = mixer.random.pick(&[2, 20, LINE + 6]);
    let length = mixer.random.below(longest);
    let mut text = mixer.text(length).into_bytes();
    if mixer.random.once_in(6) {
        mixer.damage(&mut text);
    }
    text
}

/// Histories that take more than they keep: 110 to 310 texts, added and entered in turn, some of them damaged, some equal to the one
/// before. The oldest entries go, and the total falls and rises.
pub fn full_ones(part: &mut Part) {
    let mut lent = Lent::new();
    let mut mixer = Mixer::new(SEED_FULL);
    for number in 0..FULL {
        let (least, longest) = LENGTHS[number % LENGTHS.len()];
        let mut texts: Vec<Vec<u8>> = Vec::new();
        for _ in 0..ENTRIES + 10 + mixer.random.below(2 * ENTRIES + 1) {
            let length = least + mixer.random.below(longest - least + 1);
            let mut text = mixer.text(length).into_bytes();
            match mixer.random.below(16) {
                0 => text = texts.last().cloned().unwrap_or(text),
                1 => mixer.damage(&mut text),
                _ => {}
            }
            texts.push(text);
        }
        let mut turn = 0;
        check_by(part, &mut lent, &texts, |lent, part, model, text| {
            turn += 1;
            if turn % 2 == 0 { lent.add(part, model, text) } else { enter(lent, part, model, text) }
        });
    }
}

/// Enters a text: it is the line that was typed, with the cursor at its end.
pub fn enter(lent: &mut Lent, part: &mut Part, model: &mut Model, text: &[u8]) -> bool {
    (model.line, model.cursor) = (text.to_vec(), text.len());
    lent.hold(&model.state(), &model.slots());
    lent.press(part, model, PROMPT, b'\r').is_some()
}

/// Texts about the longest that is taken, and of any greater length, each ill-formed too.
pub fn long_texts(part: &mut Part) {
    let mut lent = Lent::new();
    for length in (250..262).chain([512, 1_024, 65_535, 65_536, 1_048_577]) {
        let mut text = vec![b'a'; length];
        for place in [0, 1, LINE - 6, length / 2, length - 1] {
            text[place] = 0xFF;
            check(part, &mut lent, &[text.clone()]);
            text[place] = b'a';
            check(part, &mut lent, &[text.clone(), text.clone(), b"b".to_vec()]);
        }
    }
}
