// Prompts: good ones are drawn, and bad ones refused by 11 before the buffers are looked at.
use crate::lent::{Lent, NONE, Room};
use crate::model::answers::key_refusal;
use crate::model::{LINE, Model};
use crate::part::Part;
use crate::states::{KEYS, good};

/// More than any redraw writes.
const SCREEN: usize = 400;
const LETTERS: [&str; 4] = ["a", "é", "語", "😀"];

/// Prompts of all lengths to 140 and some greater, of characters of each length, with the last cut off where it doesn't fit.
pub fn compare(part: &mut Part) {
    let mut lent = Lent::new();
    let states: Vec<_> = good().into_iter().flat_map(|model| KEYS.map(|key| (model.clone(), key))).collect();
    for length in (0..=140).chain([255, 256, 65_536]) {
        for letter in LETTERS {
            let prompt = letter.repeat(length).into_bytes();
            one(part, &mut lent, &states, &prompt[..length]);
        }
    }
}

/// A prompt before keys of every kind, on several states.
fn one(part: &mut Part, lent: &mut Lent, states: &[(Model, u8)], prompt: &[u8]) {
    part.input(prompt);
    for (mut model, key) in states.iter().cloned() {
        lent.hold(&model.state(), &model.slots());
        let Some(refusal) = key_refusal(prompt, LINE, SCREEN, 0) else {
            lent.press_short(part, &mut model, prompt, key);
            continue;
        };
        for room in [Room { line: LINE, screen: SCREEN }, NONE] {
            lent.refuse(part, prompt, key, room, refusal);
        }
    }
}
