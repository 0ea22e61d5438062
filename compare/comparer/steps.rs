// Steps of a history: texts that come to it and entries that are forgotten, beside the original's CommandHistory.
use crate::history::{PROMPT, enter};
use crate::lent::Lent;
use crate::model::{ENTRIES, Model};
use crate::part::{Part, hex};
use original::Original;

const UP: &[u8] = b"\x1B[A";
const DOWN: &[u8] = b"\x1B[B";
const REDRAW: &[u8] = b"\r\x1B[2K";

/// A text that is added, one that is entered, the number of an entry that is forgotten.
pub enum Step {
    Add(Vec<u8>),
    Enter(Vec<u8>),
    Forget(usize),
}

impl Step {
    /// Texts are added and entered in turn.
    pub fn bring((number, text): (usize, Vec<u8>)) -> Self {
        if number % 2 == 0 { Step::Add(text) } else { Step::Enter(text) }
    }

    fn take(&self, lent: &mut Lent, part: &mut Part, model: &mut Model) -> bool {
        match self {
            Step::Add(text) => lent.add(part, model, text),
            Step::Enter(text) => enter(lent, part, model, text),
            Step::Forget(number) => lent.forget(part, model, *number),
        }
    }

    /// The text, or the number in eight bytes.
    fn bytes(&self) -> Vec<u8> {
        match self {
            Step::Add(text) | Step::Enter(text) => text.clone(),
            Step::Forget(number) => number.to_be_bytes().to_vec(),
        }
    }
}

/// Takes steps with a history and with the original's of the same entries, which has no forgetting: there it begins anew
/// with the entries that are left. After each step the original is read through: from the newest entry to the oldest, and
/// back, which leaves it behind the newest. At last both are led up past the oldest entry and down past the newest by
/// arrows. In the input the first slot and the count stand before the steps.
pub fn go_on(part: &mut Part, lent: &mut Lent, mut model: Model, steps: &[Step]) {
    let told: Vec<u8> = steps.iter().flat_map(Step::bytes).collect();
    part.input(&[&[model.first as u8, model.entries.len() as u8], &told[..]].concat());
    lent.hold(&model.state(), &model.slots());
    let mut theirs = Original::history_of(&model.entries);
    for (number, step) in steps.iter().enumerate() {
        if !step.take(lent, part, &mut model) {
            return;
        }
        // an ill-formed line is an empty one to the loop's history, and an ill-formed text is refused
        match step {
            Step::Add(text) => _ = str::from_utf8(text).map(|text| theirs.add_command(text.to_string())),
            Step::Enter(text) => theirs.add_command(str::from_utf8(text).unwrap_or_default().to_string()),
            Step::Forget(_) => theirs = Original::history_of(&model.entries),
        }
        let ours: Vec<Option<&[u8]>> = lent.entries().into_iter().map(Some).collect();
        let same = ours.iter().rev().chain([&None]).all(|entry| theirs.previous().map(String::as_bytes) == *entry)
            && ours.iter().skip(1).chain([&None]).all(|entry| theirs.next().map(String::as_bytes) == *entry);
        if !part.note((!same).then(|| format!("step:     number {number}\nthe entries are not the original's"))) {
            return;
        }
    }
    let mut recalled = |arrow| {
        (0..=ENTRIES).all(|step| {
            let redraw = |entry: &[u8]| [REDRAW, PROMPT, entry].concat();
            let expected = match arrow {
                UP => theirs.previous().map(|entry| redraw(entry.as_bytes())).unwrap_or_default(),
                _ => redraw(theirs.next().map(String::as_bytes).unwrap_or_default()),
            };
            recalls(part, lent, &mut model, arrow, step, &expected)
        })
    };
    _ = recalled(UP) && recalled(DOWN);
}

/// The last byte of an arrow has to show what the original would, and the others nothing.
fn recalls(part: &mut Part, lent: &mut Lent, model: &mut Model, arrow: &[u8], step: usize, expected: &[u8]) -> bool {
    let mut shown = Vec::new();
    for &key in arrow {
        let Some(effect) = lent.press(part, model, PROMPT, key) else { return false };
        shown.extend(effect.screen);
    }
    let difference = (shown != expected).then(|| {
        let arrow = arrow.escape_ascii();
        format!("arrow:    {arrow}, step {step}\nRust:     {}\nours:     {}", hex(expected), hex(&shown))
    });
    part.note(difference)
}
