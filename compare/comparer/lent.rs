// What calls on a saved state are lent: state and slots, which stay from call to call, the line and the screen.
use crate::model::{Effect, LINE, Model, answers, saved};
use crate::part::{Part, hex, say};
use crate::watched::Watched;

/// How much longer than needed the larger buffers are.
const MORE: usize = 37;
/// More than any redraw writes.
const SCREEN: usize = 512;

/// The lengths of the line buffer and of the screen.
#[derive(Clone, Copy)]
pub struct Room {
    pub line: usize,
    pub screen: usize,
}

/// How many slots a key or a text may change, and how many `fresh` may, which writes all there are, and forgetting, after
/// which entries close up. A refused call may change none.
const ONE: usize = 1;
const ALL: usize = usize::MAX;

/// What calls are lent that show nothing.
pub const NONE: Room = Room { line: 0, screen: 0 };

pub struct Lent {
    state: Watched,
    slots: Watched,
    line: Watched,
    screen: Watched,
    /// What the slots held before the call.
    before: Vec<u8>,
    /// Whether the next key gets buffers that are longer than needed, or exactly long enough.
    more: bool,
}

impl Lent {
    pub fn new() -> Self {
        let [state, slots] = [saved::STATE, saved::SLOTS].map(|length| Watched::new(length + MORE));
        let (line, screen) = (Watched::new(LINE + MORE), Watched::new(SCREEN));
        Lent { state, slots, line, screen, before: Vec::new(), more: false }
    }

    /// Makes buffers of these lengths fresh. A refusal leaves them as they were.
    pub fn fresh(&mut self, part: &mut Part, state: usize, slots: usize) -> bool {
        let answer = answers::fresh(state, slots);
        self.begin(state, slots, (answer == 0).then(Model::fresh));
        let given = calls::fresh(self.state.lent(), self.slots.lent());
        self.judge(part, ALL, answer, given, || "fresh".to_string())
    }

    /// The same with the profile of this number, which may be none.
    pub fn fresh_with(&mut self, part: &mut Part, profile: u8, state: usize, slots: usize) -> bool {
        let answer = answers::fresh_with(profile, state, slots);
        let model = saved::numbered(profile).filter(|_| answer == 0).map(Model::fresh_with);
        self.begin(state, slots, model);
        let given = calls::fresh_with(profile, self.state.lent(), self.slots.lent());
        self.judge(part, ALL, answer, given, || format!("fresh with profile {profile}"))
    }

    /// Puts a saved state there.
    pub fn hold(&mut self, state: &[u8], slots: &[u8]) {
        self.state.hold(state);
        self.slots.hold(slots);
        self.keep();
        self.room(NONE);
    }

    /// Has the library and the model take a key, and gives back what it showed if all was as expected.
    pub fn press(&mut self, part: &mut Part, model: &mut Model, prompt: &[u8], key: u8) -> Option<Effect> {
        let effect = model.press(prompt, key);
        self.take(part, model, prompt, key, effect)
    }

    /// The same, and before it with buffers that are too short.
    pub fn press_short(&mut self, part: &mut Part, model: &mut Model, prompt: &[u8], key: u8) -> Option<Effect> {
        let effect = model.press(prompt, key);
        let refused = self.refuse_short(part, prompt, key, effect.screen.len());
        if refused { self.take(part, model, prompt, key, effect) } else { None }
    }

    // The library has to show what the model showed, and to leave what the model is now.
    fn take(&mut self, part: &mut Part, model: &Model, prompt: &[u8], key: u8, effect: Effect) -> Option<Effect> {
        self.more = !self.more;
        let more = if self.more { MORE } else { 0 };
        self.room(Room { line: LINE + more, screen: effect.screen.len() + more });
        let line = effect.entered.as_deref().unwrap_or_default();
        self.line.expect(line);
        self.screen.expect(&effect.screen);
        self.leave(model, !line.is_empty());
        self.key(part, prompt, key, answers::key(&effect)).then_some(effect)
    }

    /// A key that must be refused with this answer.
    pub fn refuse(&mut self, part: &mut Part, prompt: &[u8], key: u8, room: Room, answer: u64) -> bool {
        self.room(room);
        self.key(part, prompt, key, answer)
    }

    /// Has the library and the model add a text.
    pub fn add(&mut self, part: &mut Part, model: &mut Model, text: &[u8]) -> bool {
        let answer = match answers::add(text) {
            Ok(text) => {
                model.add(text);
                self.leave(model, true);
                0
            }
            Err(refusal) => refusal,
        };
        self.adding(part, text, answer)
    }

    /// A text that must be refused with this answer.
    pub fn adding(&mut self, part: &mut Part, text: &[u8], answer: u64) -> bool {
        let given = calls::history_add(self.state.lent(), self.slots.lent(), text);
        self.judge(part, ONE, answer, given, || format!("add {}", hex(text)))
    }

    /// Has the library and the model forget the entry with this number, if there is one.
    pub fn forget(&mut self, part: &mut Part, model: &mut Model, number: usize) -> bool {
        let answer = answers::forget_refusal(model.entries.len(), number).unwrap_or_else(|| {
            let gone = model.forget(number);
            self.leave(model, true);
            gone as u64
        });
        self.forgetting(part, number, answer)
    }

    /// An entry to forget that must be refused with this answer.
    pub fn forgetting(&mut self, part: &mut Part, number: usize, answer: u64) -> bool {
        let given = calls::history_forget(self.state.lent(), self.slots.lent(), number);
        self.judge(part, ALL, answer, given, || format!("forget {number}"))
    }

    /// The entries of the history, as the library left them.
    pub fn entries(&self) -> Vec<&[u8]> {
        let (state, slots) = (self.state.found(), self.slots.found());
        let [count, first] = [saved::EDITOR, saved::FIRST].map(|place| usize::from(state[place]));
        let slot = |number| &slots[saved::place_of(first, number)..][..saved::SLOT];
        (0..count).map(slot).map(|slot| &slot[1..][..usize::from(slot[0])]).collect()
    }

    /// The bytes of the state, as the library left them.
    pub fn state(&self) -> &[u8] {
        self.state.found()
    }

    /// The bytes of the slots, as the library left them.
    pub fn slots(&self) -> &[u8] {
        self.slots.found()
    }

    // A line buffer that is too short is refused before a screen that is.
    fn refuse_short(&mut self, part: &mut Part, prompt: &[u8], key: u8, needed: usize) -> bool {
        let one_less = needed.saturating_sub(1);
        let rooms = [(LINE - 1, needed), (LINE - 1, one_less), (0, 0), (LINE, one_less)];
        rooms.into_iter().all(|(line, screen)| match answers::key_refusal(prompt, line, screen, needed) {
            Some(answer) => self.refuse(part, prompt, key, Room { line, screen }, answer),
            None => true,
        })
    }

    // Buffers of these lengths, and what the call has to leave in them, if anything.
    fn begin(&mut self, state: usize, slots: usize, model: Option<Model>) {
        self.state.clear(state);
        self.slots.clear(slots);
        self.keep();
        self.room(NONE);
        model.iter().for_each(|model| self.leave(model, true));
    }

    // The slots as they are now are those before the next call.
    fn keep(&mut self) {
        self.before.clear();
        self.before.extend(self.slots.found());
    }

    // The numbers of the slots that the call changed.
    fn changed(&mut self) -> Vec<usize> {
        let found = self.slots.found();
        if found == self.before {
            return Vec::new();
        }
        let both = found.chunks(saved::SLOT).zip(self.before.chunks(saved::SLOT)).enumerate();
        let changed = both.filter(|(_, (found, before))| found != before).map(|(number, _)| number).collect();
        self.keep();
        changed
    }

    fn room(&mut self, room: Room) {
        self.line.clear(room.line);
        self.screen.clear(room.screen);
    }

    // The call has to leave this state. The slots are laid out anew only if they may have changed.
    fn leave(&mut self, model: &Model, slots: bool) {
        self.state.expect(&model.state());
        if slots {
            self.slots.expect(&model.slots());
        }
    }

    fn key(&mut self, part: &mut Part, prompt: &[u8], key: u8, answer: u64) -> bool {
        let Lent { state, slots, line, screen, .. } = self;
        let given = calls::key(state.lent(), slots.lent(), prompt, key, line.lent(), screen.lent());
        self.judge(part, ONE, answer, given, || format!("key {key:02x}, prompt {}", hex(prompt)))
    }

    // All must be as expected, and no more slots changed than the call may change.
    fn judge(&mut self, part: &mut Part, most: usize, answer: u64, given: u64, call: impl Fn() -> String) -> bool {
        let changed = self.changed();
        let most = if refused(given) { 0 } else { most };
        let buffers = [("state", &self.state), ("slots", &self.slots), ("line", &self.line), ("screen", &self.screen)];
        let wrong = buffers.iter().find_map(|(name, buffer)| Some((name, buffer, buffer.wrong()?)));
        let say_wrong = |(name, buffer, place): (&&str, &&Watched, i64)| {
            format!("\nwrong:    byte {place} of the {name}, which is {}", hex(buffer.found()))
        };
        let difference = (given != answer || wrong.is_some() || changed.len() > most).then(|| {
            let lengths = buffers.map(|(name, buffer)| format!("{name} {}", buffer.found().len())).join(", ");
            let (call, expected, found) = (call(), say(answer), say(given));
            let wrong = wrong.map(say_wrong).unwrap_or_default();
            let slots = if changed.len() > most { format!("\nchanged:  slots {changed:?}") } else { String::new() };
            format!("call:     {call}\nlengths:  {lengths}\nexpected: {expected}\nfound:    {found}{slots}{wrong}")
        });
        part.called(refused(answer), difference)
    }
}

fn refused(answer: u64) -> bool {
    answer >> 32 & 0xFF != 0
}
