// Runs in which entries are forgotten among texts and keys: against the original, which is led anew to where ours is,
// and against the model.
use crate::begun::{COUNTS, KINDS, text, typable};
use crate::forget::{beyond, coming_again};
use crate::history::LENGTHS;
use crate::keys::{TRIED, apart};
use crate::lent::Lent;
use crate::lines::Mixer;
use crate::model::{ENTRIES, Effect, Mode, Model, Profile};
use crate::part::Part;
use crate::random::Random;
use crate::sequences;
use crate::shell::{PLAIN, walk};
use crate::steps::{Step, go_on};
use crate::streams::Typist;

const SEED_ROOM: u64 = 0x666F_7267_0000_0002;
const SEED_TEXTS: u64 = 0x666F_7267_0000_0003;
const SEED_RUST: u64 = 0x666F_7267_0000_0004;
const SEED_TYPIST: u64 = 0x666F_7267_0000_0005;
const SEED_ECMA48: u64 = 0x666F_7267_0000_0006;
const SEEDS_SEQUENCES: [u64; 2] = [0x666F_7267_0000_0007, 0x666F_7267_0000_0008];

/// So many entries of a full history are forgotten, and then so many texts more come than there is room for.
const GONE: [usize; 6] = [1, 2, 3, 37, 99, 100];
const MORE: usize = 3;
/// Which of so many entries goes next: the oldest, the newest, the one in the middle, any.
const WAYS: [fn(usize, &mut Random) -> usize; 4] =
    [|_, _| 0, |count, _| count - 1, |count, _| count / 2, |count, random| random.below(count)];

/// So many runs among texts, and the steps of each.
const RUNS: usize = 600;
const STEPS: usize = 200;
/// So many streams of the Rust's keys are typed in a run. Before each an entry is forgotten or a text added.
const STREAMS: usize = 12;
/// So many runs among ECMA-48's keys. An entry is forgotten or a text added before one key in so many.
const RUNS_ECMA48: usize = 10_000;
const CHANGED: usize = 8;
/// The lengths of the entries that are typed to the original.
const TYPED: [(usize, usize); 2] = [(1, 3), (1, 20)];

/// Full histories that give room back, and take texts again. The original begins with what is left: it drops no entry
/// before it has 100.
pub fn room(part: &mut Part) {
    let mut lent = Lent::new();
    let mut mixer = Mixer::new(SEED_ROOM);
    for first in 0..ENTRIES {
        for (turn, gone) in GONE.into_iter().enumerate() {
            let (kind, lengths) = (KINDS[(first + turn) % KINDS.len()], LENGTHS[(first + turn) % LENGTHS.len()]);
            let model = coming_again(&mut mixer, first, ENTRIES, |mixer| text(mixer, kind, lengths));
            let mut left = model.clone();
            let mut steps = Vec::new();
            while left.entries.len() > ENTRIES - gone {
                let number = WAYS[(first + turn) % WAYS.len()](left.entries.len(), &mut mixer.random);
                left.forget(number);
                steps.push(Step::Forget(number));
            }
            let new = (left.entries.len()..ENTRIES + MORE).map(|number| (number, format!("new {number}").into_bytes()));
            steps.extend(new.map(Step::bring));
            go_on(part, &mut lent, model, &steps);
        }
    }
}

/// Runs of texts that come and entries that go, from histories of each count and kind.
pub fn texts(part: &mut Part) {
    let mut lent = Lent::new();
    let mut mixer = Mixer::new(SEED_TEXTS);
    for run in 0..RUNS {
        let (first, count) = (mixer.random.below(ENTRIES), COUNTS[run % COUNTS.len()]);
        let (kind, lengths) = (mixer.random.pick(&KINDS), mixer.random.pick(&LENGTHS));
        let new = |mixer: &mut Mixer| text(mixer, kind, lengths);
        let model = coming_again(&mut mixer, first, count, new);
        let mut left = model.clone();
        let steps: Vec<Step> = (0..STEPS).map(|number| step(&mut mixer, &mut left, number, new)).collect();
        go_on(part, &mut lent, model, &steps);
    }
}

/// The next step of a run: an entry that is forgotten; or a text that is new, damaged, or equal to the newest or to the
/// one before it.
fn step(mixer: &mut Mixer, left: &mut Model, number: usize, new: impl Fn(&mut Mixer) -> String) -> Step {
    let turn = mixer.random.below(16);
    if turn < 6 {
        let count = left.entries.len();
        let entry = entry_of(&mut mixer.random, count);
        if entry < count {
            left.forget(entry);
        }
        return Step::Forget(entry);
    }
    let back = |by: usize| left.entries.iter().rev().nth(by).cloned();
    let again = match turn {
        6 => back(0),
        7..10 => back(1),
        _ => None,
    };
    let mut text = again.unwrap_or_else(|| new(mixer).into_bytes());
    if turn == 10 {
        mixer.damage(&mut text);
    }
    left.add(str::from_utf8(&text).unwrap_or_default());
    Step::bring((number, text))
}

/// The number of one of so many entries, often of the oldest or the newest; once in eight times one that none has.
fn entry_of(random: &mut Random, count: usize) -> usize {
    let any = random.below(count);
    match random.below(8) {
        0 => random.pick(&beyond(count, any).collect::<Vec<_>>()),
        1 | 2 => 0,
        3 | 4 => count.saturating_sub(1),
        _ => any,
    }
}

/// A state that keys are typed to.
struct Run<'a> {
    part: &'a mut Part,
    lent: Lent,
    mixer: Mixer,
}

impl Run<'_> {
    /// The state with which a run of keys begins: a history that can be typed. In the input the first slot and the count
    /// stand before the keys.
    fn begin(&mut self, number: usize, profile: Profile, keys: &[u8]) -> Model {
        let (first, count) = (number / COUNTS.len() % ENTRIES, COUNTS[number % COUNTS.len()]);
        let model = coming_again(&mut self.mixer, first, count, typed_text);
        let model = Model { profile, ..model };
        self.part.input(&[&[first as u8, count as u8], keys].concat());
        self.lent.hold(&model.state(), &model.slots());
        model
    }

    /// Forgets an entry or adds a text.
    fn change(&mut self, model: &mut Model) -> bool {
        if self.mixer.random.once_in(3) {
            let text = typed_text(&mut self.mixer);
            return self.lent.add(self.part, model, text.as_bytes());
        }
        let number = entry_of(&mut self.mixer.random, model.entries.len());
        self.lent.forget(self.part, model, number)
    }

    /// Takes a key, now and then first with buffers that are too short.
    fn press(&mut self, model: &mut Model, number: usize, key: u8) -> Option<Effect> {
        let press = if number % TRIED == TRIED - 1 { Lent::press_short } else { Lent::press };
        press(&mut self.lent, self.part, model, PLAIN.prompt, key)
    }

    /// Types keys to the state, and to the original's loop behind those that lead it there. Where a command leaves the
    /// loop that is the end.
    fn type_both(&mut self, model: &mut Model, keys: &[u8]) -> bool {
        let leading = leading_to(model);
        let screens = PLAIN.screens(&[&leading, keys].concat());
        keys.iter().zip(screens.iter().skip(leading.len())).enumerate().all(|(number, (&key, screen))| {
            let effect = self.press(model, number, key);
            effect.is_some_and(|effect| self.part.note(apart(&PLAIN, number, key, effect, screen)))
        })
    }
}

/// A text that can be typed.
fn typed_text(mixer: &mut Mixer) -> String {
    let (kind, lengths) = (mixer.random.pick(&KINDS), mixer.random.pick(&TYPED));
    typable(&text(mixer, kind, lengths))
}

/// The keys that lead the original's loop to a state: they enter the entries, go up to the place, erase what is recalled
/// there, type the line, go left to the cursor, and begin an escape as far as it has come.
fn leading_to(model: &Model) -> Vec<u8> {
    let mut keys: Vec<u8> = model.entries.iter().flat_map(|entry| [entry, &b"\r"[..]].concat()).collect();
    keys.extend(b"\x1B[A".repeat(model.entries.len() - model.place));
    keys.extend(b"\x7F".repeat(model.entries.get(model.place).map_or(0, Vec::len)));
    keys.extend(&model.line);
    keys.extend(b"\x1B[D".repeat(model.line.len() - model.cursor));
    keys.extend(match model.mode {
        Mode::Typing => &b""[..],
        Mode::Escape => b"\x1B",
        Mode::Bracket | Mode::Sequence => b"\x1B[",
    });
    keys
}

/// Runs of the Rust's keys against the original's loop; at last both are led through their histories.
pub fn rust_keys(part: &mut Part) {
    let mut run = Run { part, lent: Lent::new(), mixer: Mixer::new(SEED_RUST) };
    let mut typist = Typist::new(SEED_TYPIST);
    for number in 0..COUNTS.len() * ENTRIES {
        let streams: Vec<Vec<u8>> = (0..STREAMS).map(|_| typist.stream()).collect();
        let mut model = run.begin(number, Profile::Rust, &streams.concat());
        if streams.iter().all(|stream| run.change(&mut model) && run.type_both(&mut model, stream)) {
            let walk = walk(&leading_to(&model));
            run.type_both(&mut model, &walk);
        }
    }
}

/// Runs of ECMA-48's keys, between which entries are forgotten and texts added, against the model.
pub fn ecma48_keys(part: &mut Part) {
    let mut run = Run { part, lent: Lent::new(), mixer: Mixer::new(SEED_ECMA48) };
    let [seed, seed_keys] = SEEDS_SEQUENCES;
    let mut sequences = sequences::Mixer::new(seed, seed_keys);
    for number in 0..RUNS_ECMA48 {
        let keys = sequences.stream();
        let mut model = run.begin(number, Profile::Ecma48, &keys);
        _ = keys.iter().enumerate().all(|(number, &key)| {
            let good = !run.mixer.random.once_in(CHANGED) || run.change(&mut model);
            good && run.press(&mut model, number, key).is_some()
        });
    }
}
