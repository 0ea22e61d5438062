// What a program of the repository replays: trees and lines as its input, and what it has to write for them.
use crate::hex::{hex, or_dash};
use forest::{Node, frames, image};
use original::Original;

/// A tree and the lines to answer under it.
pub type Sample = (Vec<Node>, Vec<Vec<u8>>);

pub fn bytes(lines: &[&str]) -> Vec<Vec<u8>> {
    lines.iter().map(|line| line.as_bytes().to_vec()).collect()
}

#[derive(Default)]
pub struct Stored {
    input: String,
    output: String,
    lines: usize,
}

impl Stored {
    /// The lines of a sample, each with its answer under the tree, which is planted.
    pub fn sample(&mut self, (tree, lines): &Sample, answer: impl Fn(&[u8]) -> String) {
        Original::plant(tree);
        self.tree(&image(tree));
        lines.iter().for_each(|line| self.line(line, &answer(line)));
    }

    /// Some lines of a sample under its tree without the last byte: the last frame is broken, and no line is looked at.
    pub fn bad_tree(&mut self, (tree, lines): &Sample) {
        let image = image(tree);
        let refused = format!("refused 1 {} kept", frames(tree).len() - 1);
        self.tree(&image[..image.len() - 1]);
        lines.iter().rev().take(4).chain(&lines[..1]).for_each(|line| self.line(line, &refused));
    }

    fn tree(&mut self, image: &[u8]) {
        self.input += &format!("={}\n", hex(image));
        self.output += &format!("tree of {}\n", image.len());
    }

    fn line(&mut self, line: &[u8], answer: &str) {
        self.input += &format!("{}\n", hex(line));
        self.output += &format!("{} {answer}\n", or_dash(hex(line)));
        self.lines += 1;
    }

    /// Writes both files into the program's folder, which the first word of the command names.
    pub fn write(self) {
        let folder = std::env::args().nth(1).expect("the folder of the program");
        let Stored { input, output, lines } = self;
        assert!(input.len() < 65_536, "the program reads at most 65,535 bytes");
        std::fs::write(format!("{folder}/stdin"), &input).expect("stdin is written");
        std::fs::write(format!("{folder}/stdout"), &output).expect("stdout is written");
        println!("{lines} lines; {} and {} bytes", input.len(), output.len());
    }
}
