// The program `console`: a key in a session against the bare call, and what tree lines take by their bytes.
use crate::keys::{Ours, PAIR, WORDS, entries};
use crate::table::{session_row, tree_lines_row};
use crate::timing::{Task, medians};
use crate::tree::even;
use forest::{Kind, Node, frames, image, plain_definition, plain_node};
use std::fs::{File, write};
use std::process::{Command, Stdio};

const LINES: [usize; 2] = [20, 200];
/// Histories: a name, and the length of each entry, 0 for an empty history.
const HISTORIES: [(&str, usize); 3] = [("empty", 0), ("full, 20 bytes each", 20), ("full, 255 bytes each", 255)];

/// The keys of a line, an even number, and so many lines of a letter that is typed and taken back.
const KEYS: usize = 510;
const KEY_LINES: usize = 20;

/// So many nodes of 50 lines each, and so many nodes with a frame of 128 bytes each.
const FIFTIES: [usize; 3] = [25, 50, 100];
const EVEN: [usize; 3] = [64, 128, 256];

pub fn key_rows() {
    for length in LINES {
        for (history, bytes) in HISTORIES {
            let line = vec![b'a'; length];
            let mut ours = Ours::new(&line, WORDS, bytes);
            let typed: String = entries(WORDS, bytes).map(|entry| entry + "\r").collect();
            let before = key_lines(&[typed.as_bytes(), &line].concat());
            let pairs = key_lines(&PAIR.repeat(KEY_LINES * KEYS / PAIR.len()));
            let [before, with] = [Input::new("before", &before), Input::new("with", &(before.clone() + &pairs))];
            assert_eq!(with.printed().lines().last(), Some(&*house(&[b"\"", ours.pair()].concat())));
            let [key, before, with] = medians([&mut || _ = ours.pair(), &mut || before.run(), &mut || with.run()]);
            session_row(length, history, key / PAIR.len() as f64, (with - before) / (KEY_LINES * KEYS) as f64);
        }
    }
}

/// The times of all trees are taken in turn, and what a session of no line takes is taken off.
pub fn tree_rows() {
    let fifties = FIFTIES.map(|nodes| ("definitions", fifties(nodes)));
    let even = EVEN.map(|nodes| ("even nodes", even(nodes)));
    let trees: Vec<(&str, Vec<Node>)> = [("none", Vec::new())].into_iter().chain(fifties).chain(even).collect();
    let trees: [_; 7] = trees.try_into().expect("as many as there are");
    let inputs = trees.each_ref().map(|(kind, tree)| taken(&format!("{kind}{}", tree.len()), tree));
    let mut runs = inputs.each_ref().map(|input| || input.run());
    let [none, times @ ..] = medians(runs.each_mut().map(|run| run as Task));
    for ((kind, tree), time) in trees[1..].iter().zip(times) {
        tree_lines_row(kind, frames(tree).len(), image(tree).len(), time - none);
    }
}

/// The lines of a tree, all of which the program has to take: a bad line behind them has its number.
fn taken(name: &str, tree: &[Node]) -> Input {
    let lines: String = frames(tree).iter().map(|frame| house(frame) + "\n").collect();
    let bad = Input::new("bad", &(lines.clone() + "\n"));
    assert_eq!(bad.printed(), format!("2f{:04x}\n", frames(tree).len() + 1));
    Input::new(name, &lines)
}

/// Nodes with 32 flags and 17 options each, all with short names.
fn fifties(nodes: usize) -> Vec<Node> {
    let flags = (0..32).map(|number| plain_definition(Kind::Flag, number % 10));
    let options = (0..17).map(|number| plain_definition(Kind::Option { required: false }, number % 10));
    let definitions: Vec<_> = flags.chain(options).collect();
    let node = |number| Node { definitions: definitions.clone(), ..plain_node(format!("{number:02}")) };
    (0..nodes).map(node).collect()
}

fn house(frame: &[u8]) -> String {
    frame.iter().map(|byte| format!("{byte:02x}")).collect()
}

fn key_lines(keys: &[u8]) -> String {
    keys.chunks(KEYS).map(|keys| house(&[b" ", keys].concat()) + "\n").collect()
}

/// The input of a session, in a file.
struct Input(String);

impl Input {
    fn new(name: &str, lines: &str) -> Self {
        let path = format!("target/compare/{name}.session");
        write(&path, lines).expect("the input is written");
        Input(path)
    }

    fn program(&self) -> Command {
        let mut program =
            Command::new(std::env::var_os("RISSEMAT_CONSOLE").expect("RISSEMAT_CONSOLE names the program"));
        program.stdin(File::open(&self.0).expect("the input"));
        program
    }

    /// Runs the session from its start to its end. What it prints goes nowhere.
    fn run(&self) {
        let status = self.program().stdout(Stdio::null()).status().expect("the program runs");
        assert!(status.success());
    }

    fn printed(&self) -> String {
        let output = self.program().output().expect("the program runs");
        String::from_utf8(output.stdout).expect("house lines")
    }
}
