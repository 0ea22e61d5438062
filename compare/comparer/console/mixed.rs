// Mixed sessions: random trees, commands that these take or don't, mixed keys, and lines that are damaged; and trees whose frames are.
use super::program::Feed;
use super::{KEYS, check, house, key_lines, tree_lines};
use crate::damage::damage_frames;
use crate::part::Part;
use crate::planting::{examples, handlers, random, random_line};
use crate::random::Random;
use crate::streams::Typist;
use crate::trees::random_tree;
use forest::{Node, frames};
use original_fs::Original as OriginalFs;

const SESSIONS: usize = 12_000;
const DAMAGED: usize = 8_000;
const SEED: u64 = 0x636F_6E73_6F6C_0001;
const SEED_KEYS: u64 = 0x636F_6E73_6F6C_0002;
const SEED_DAMAGED: u64 = 0x636F_6E73_6F6C_0003;

/// What is typed apart from commands of the tree.
const LINES: [&str; 12] =
    ["help", "clear", "exit", " quit ", "help x", "none", "", " ", "help \u{80}\"", "\"", "\u{a0}help", "help  "];

pub fn mixed_sessions(part: &mut Part) {
    let mut mixer = Mixer { random: Random(SEED), typist: Typist::new(SEED_KEYS) };
    for _ in 0..SESSIONS {
        let input = mixer.session();
        let lengths = [0; 5].map(|_| 1 + mixer.random.below(90));
        let feed = if mixer.random.once_in(2) { Feed::Pieces(&lengths) } else { Feed::Pipe };
        check(part, &input, feed);
    }
}

/// Random trees whose frames are damaged in one to three ways, line by line; where all are taken the list of commands shows them.
pub fn damaged_trees(part: &mut Part) {
    let mut random = Random(SEED_DAMAGED);
    for _ in 0..DAMAGED {
        let mut frames = frames(&random_tree(&mut random));
        for _ in 0..1 + random.below(3) {
            damage_frames(&mut random, &mut frames);
        }
        frames.iter_mut().for_each(|frame| with_handler(frame));
        let lines: String = frames.iter().map(|frame| house(frame)).collect();
        check(part, (lines + &key_lines(b"help\ra\r", KEYS)).as_bytes(), Feed::Pipe);
    }
}

/// Gives a node's frame a handler that the original has.
fn with_handler(frame: &mut [u8]) {
    if let [0x01, _, high, low, ..] = frame {
        (*high, *low) = (0, 1);
    }
}

struct Mixer {
    random: Random,
    typist: Typist,
}

impl Mixer {
    /// Every third is damaged.
    fn session(&mut self) -> Vec<u8> {
        let tree = self.tree();
        let keys = self.keys(&tree);
        let mut lines: Vec<String> = tree_lines(&tree).split_inclusive('\n').map(str::to_string).collect();
        self.add_key_lines(&mut lines, &keys);
        if self.random.once_in(3) {
            self.damage(&mut lines);
        }
        let mut input = lines.concat().into_bytes();
        if self.random.once_in(20) {
            input.pop();
        }
        input
    }

    fn tree(&mut self) -> Vec<Node> {
        match self.random.below(5) {
            0 => examples().0,
            1 => OriginalFs::tree(),
            2 => random_tree(&mut self.random),
            _ => handlers(random(&mut self.random)).0,
        }
    }

    fn keys(&mut self, tree: &[Node]) -> Vec<u8> {
        let mut keys = Vec::new();
        for _ in 0..self.random.below(12) {
            match self.random.below(4) {
                0 => keys.extend(self.typist.stream()),
                1 => keys.extend(self.random.pick(&LINES).bytes()),
                _ => keys.extend(self.command(tree).bytes()),
            }
            keys.push(b'\r');
        }
        keys
    }

    /// The words down to a node, and what may come behind them; some behind `help`.
    fn command(&mut self, tree: &[Node]) -> String {
        let mut words = Vec::new();
        let mut siblings = tree;
        while !siblings.is_empty() && (words.is_empty() || !self.random.once_in(3)) {
            let node = &siblings[self.random.below(siblings.len())];
            words.push(node.name.as_str());
            siblings = &node.below;
        }
        let path = words.join(" ");
        match self.random.below(5) {
            0 => format!("help {path}"),
            1 => path,
            _ => random_line(&mut self.random, &path),
        }
    }

    /// The keys in lines of up to so many, some of them without any.
    fn add_key_lines(&mut self, lines: &mut Vec<String>, keys: &[u8]) {
        let most = self.random.pick(&[1, 4, 30, KEYS]);
        let mut left = keys;
        while !left.is_empty() {
            let (line, rest) = left.split_at(self.random.below(most + 1).min(left.len()));
            lines.push(house(&[b" ", line].concat()));
            left = rest;
        }
    }

    /// A line that comes again, is left out, comes too early, is joined with the next, or has a byte changed, more or less. A
    /// handler's digits stay, since the original has few handlers.
    fn damage(&mut self, lines: &mut Vec<String>) {
        if lines.is_empty() {
            return;
        }
        let (place, other) = (self.random.below(lines.len()), self.random.below(lines.len()));
        let line = lines[place].clone();
        let at = self.random.below(line.len());
        let digit = self.random.pick(&["0", "1", "f", "A", "g", " ", "\r", "\n", ""]);
        match self.random.below(6) {
            0 => lines.insert(other, line),
            1 => _ = lines.remove(place),
            2 => lines.swap(place, other),
            3 => lines[place] = line.trim_end().to_string(),
            4 => lines.insert(other, "\n".to_string()),
            _ if (4..8).contains(&at) => {}
            _ => lines[place].replace_range(at..at + 1, digit),
        }
    }
}
