// The trees that lines are parsed under, and such lines: a builder, trees that are there for a reason, random ones.
use crate::random::Random;
use forest::{DEFINITIONS, DEPTHS, Definition, Kind, Node, plain_node};

/// No short form.
const NONE: u8 = 0;

/// A tree in the making: nodes in the order of their frames, and the options and flags of the last node.
pub struct Tree(pub Vec<Node>);

impl Tree {
    pub fn new() -> Self {
        Tree(Vec::new())
    }

    pub fn node(mut self, depth: usize, name: &str) -> Self {
        let mut siblings = &mut self.0;
        for _ in 0..depth {
            siblings = &mut siblings.last_mut().expect("a node above").below;
        }
        siblings.push(Node { handler: 1, ..plain_node(name.to_string()) });
        self
    }

    fn define(mut self, kind: Kind, short: u8, name: &str, long: Option<&str>) -> Self {
        let (name, long) = (name.to_string(), long.map(str::to_string));
        let short = (short != NONE).then_some(short);
        last(&mut self.0).definitions.push(Definition { kind, short, name, long, description: String::new() });
        self
    }

    pub fn option(self, short: u8, name: &str, long: Option<&str>) -> Self {
        self.define(Kind::Option { required: false }, short, name, long)
    }

    pub fn required(self, short: u8, name: &str, long: Option<&str>) -> Self {
        self.define(Kind::Option { required: true }, short, name, long)
    }

    pub fn flag(self, short: u8, name: &str, long: Option<&str>) -> Self {
        self.define(Kind::Flag, short, name, long)
    }
}

/// The node whose frame is the last.
fn last(siblings: &mut [Node]) -> &mut Node {
    let node = siblings.last_mut().expect("a node");
    if node.below.is_empty() { node } else { last(&mut node.below) }
}

/// The node of the standard's marked examples.
pub fn marked() -> Tree {
    Tree::new().node(0, "set").flag(b'l', "long", Some("long")).required(b'c', "config", Some("cfg"))
}

/// The tree of examples: `log` with a handler, `vm` with none, and its child `start` with a handler and a flag.
pub fn examples() -> Tree {
    let Tree(mut tree) = Tree::new().node(0, "log").node(0, "vm").node(1, "start").flag(b'f', "force", Some("force"));
    tree[0] = Node {
        handler: 2,
        usage: Some("log [LEVEL]".to_string()),
        description: "Change log level".to_string(),
        ..tree[0].clone()
    };
    tree[1].handler = 0;
    tree[1].below[0].handler = 3;
    Tree(tree)
}

/// Trees whose names the words of `parse::WORDS` meet.
pub fn named() -> Vec<Tree> {
    vec![
        Tree::new(),
        Tree::new().node(0, "a"),
        // a flag and an option of one name and one short
        Tree::new().node(0, "a").option(b'a', "a", None).flag(b'a', "a", None),
        Tree::new().node(0, "a").flag(b'b', "a", Some("b")).option(b'a', "b", Some("a")),
        // an option whose long is the name of another
        Tree::new().node(0, "a").option(b'a', "a", Some("b")).option(b'b', "b", Some("a")),
        Tree::new().node(0, "a").required(b'a', "a", Some("b")).required(b'b', "b", Some("c")),
        // shorts that are shared: the first definition wins
        Tree::new()
            .node(0, "a")
            .option(b'a', "b", None)
            .option(b'a', "c", None)
            .flag(b'b', "c", None)
            .flag(b'b', "a", None),
        // names with `=`, `-`, `"` and `\`
        Tree::new().node(0, "a").option(b'=', "a=x", Some("c=a")).option(b'c', "=", Some("=x")).flag(
            b'b',
            "b=",
            Some("a="),
        ),
        Tree::new().node(0, "a").option(b'-', "-", Some("--")).flag(b'a', "-a", Some("--a")).required(b'b', "-b", None),
        Tree::new().node(0, "a").option(b'"', "\"", Some("\\")).flag(b'\\', "\\\"", Some("\"\"")),
        // children with the names of flags, and a neighbour whose options are its own
        Tree::new()
            .node(0, "a")
            .flag(b'a', "a", None)
            .node(1, "-")
            .node(1, "--a")
            .flag(b'b', "b", None)
            .node(1, "-a")
            .option(b'a', "c", None),
        Tree::new()
            .node(0, "a")
            .node(1, "b")
            .option(b'b', "b", None)
            .node(0, "b")
            .flag(b'a', "a", None)
            .required(b'c', "c", None),
        eight_levels(),
        full(),
    ]
}

/// The tree with these handlers in turn, in the order of the frames: nodes without one are among them.
pub fn handlers(Tree(mut tree): Tree) -> Tree {
    number(&mut tree, &mut [1, 0, 2, 255, 256, 65_535].into_iter().cycle());
    Tree(tree)
}

fn number(siblings: &mut [Node], handlers: &mut impl Iterator<Item = u16>) {
    for node in siblings {
        node.handler = handlers.next().expect("handlers without end");
        number(&mut node.below, handlers);
    }
}

/// A node at each depth, all of one name, each with a flag of its own.
fn eight_levels() -> Tree {
    (0..DEPTHS).fold(Tree::new(), |tree, depth| {
        let name = ["a", "b", "c"][depth % 3];
        tree.node(depth, "a").flag(name.as_bytes()[0], name, None)
    })
}

/// A text of 32 bytes.
fn text(letter: char, number: u8) -> String {
    format!("{letter}{number:031}")
}

/// A node with 32 options and 32 flags, all with names and longs of 32 bytes.
pub fn full() -> Tree {
    let numbers = 0..DEFINITIONS as u8;
    let options = numbers.clone().fold(Tree::new().node(0, "a"), |tree, number| {
        tree.option(b'a' + number % 3, &text('n', number), Some(&text('l', number)))
    });
    numbers.fold(options, |tree, number| tree.flag(b'A' + number % 26, &text('f', number), Some(&text('g', number))))
}

/// A word or two behind a space that the node of `full` takes.
fn full_arguments(random: &mut Random) -> String {
    let number = random.below(DEFINITIONS) as u8;
    let flags: String = (0..random.below(8)).map(|_| char::from(b'A' + random.below(26) as u8)).collect();
    match random.below(6) {
        0 => format!(" --{}", text(random.pick(&['f', 'g']), number)),
        1 => format!(" --{}={flags}", text(random.pick(&['n', 'l']), number)),
        2 => format!(" --{} -{flags}", text(random.pick(&['n', 'l']), number)),
        3 => format!(" -{flags}"),
        4 => format!(" -{flags}{} \u{20ac}{number}", random.pick(&['a', 'b', 'c'])),
        _ => format!(" {flags}{number}"),
    }
}

/// A line of such words under the name of that node: of fewer bytes than `end`, or so many and what the last words take.
pub fn full_line(random: &mut Random, end: usize) -> String {
    let length = random.below(end);
    let mut line = "a".to_string();
    while line.len() < length {
        line.push_str(&full_arguments(random));
    }
    line
}

/// What the names and longs of random trees are taken from.
const NAMES: [&str; 8] = ["a", "b", "ab", "-", "-a", "a=b", "\"", "x\\"];
const SHORTS: [u8; 8] = [NONE, b'a', b'a', b'b', b'b', b'-', b'=', b'"'];

/// A tree of at most 12 nodes.
pub fn random(random: &mut Random) -> Tree {
    let mut left = 12;
    siblings(Tree::new(), 0, &mut left, random)
}

// Some siblings of this depth, each with what is below it; their names rise by bytes.
fn siblings(mut tree: Tree, depth: usize, left: &mut usize, random: &mut Random) -> Tree {
    let mut names: Vec<&str> = (0..1 + random.below(4)).map(|_| random.pick(&NAMES)).collect();
    names.sort_unstable();
    names.dedup();
    for name in names {
        if *left == 0 {
            break;
        }
        *left -= 1;
        tree = definitions(tree.node(depth, name), random);
        if depth + 1 < DEPTHS && random.once_in(2) {
            tree = siblings(tree, depth + 1, left, random);
        }
    }
    tree
}

fn definitions(mut tree: Tree, random: &mut Random) -> Tree {
    for _ in 0..random.below(13) {
        let (short, name) = (random.pick(&SHORTS), random.pick(&NAMES));
        let long = random.once_in(2).then(|| random.pick(&NAMES));
        tree = match random.below(12) {
            0 => tree.required(short, name, long),
            1..6 => tree.option(short, name, long),
            _ => tree.flag(short, name, long),
        };
    }
    tree
}

/// A line of words that random trees know, and of words made of them. Most begin with the name of a node: behind any other word
/// nothing counts.
pub fn random_line(numbers: &mut Random, name: &str) -> String {
    let first = if numbers.once_in(8) { random_word(numbers) } else { name.to_string() };
    let rest = (0..numbers.below(6)).map(|_| random_word(numbers));
    let words: Vec<String> = std::iter::once(first).chain(rest).map(|word| typed(&word)).collect();
    words.join(" ")
}

fn random_word(numbers: &mut Random) -> String {
    let (name, other) = (numbers.pick(&NAMES), numbers.pick(&NAMES));
    match numbers.below(14) {
        0..4 => name.to_string(),
        4..8 => format!("--{name}"),
        8 | 9 => format!("--{name}={other}"),
        10 | 11 => format!("-{name}"),
        12 => format!("-{name}{other}"),
        _ => format!("{name}\u{e9}{other}\u{20ac}"),
    }
}

// A word as it is typed: its quotes and backslashes are escaped.
fn typed(word: &str) -> String {
    word.replace('\\', "\\\\").replace('"', "\\\"")
}
