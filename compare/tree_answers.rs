// Writes the input and the output of the program replay_tree: images, and what a reader of the standard's text says of them.
#[path = "comparer/damage.rs"]
mod damage;
#[allow(dead_code)]
mod hex;
#[path = "comparer/random.rs"]
mod random;
#[path = "comparer/trees.rs"]
mod trees;

use damage::damaged;
use forest::{BYTES, DEFINITIONS, DEPTHS, Definition, Kind, NAME, NODES, NOTE, Node};
use forest::{frames, image, plain_definition, plain_node, read};
use hex::hex;
use original::Original;
use original_fs::Original as OriginalFs;
use random::Random;
use trees::random_tree;

/// The number of random trees, how often each is damaged, their most bytes, and the start of their numbers.
const RANDOM: usize = 30;
const TIMES: usize = 8;
const RANDOM_BYTES: usize = 150;
const SEED: u64 = 0x7265_706C_6179_0003;

fn node(name: &str) -> Node {
    plain_node(name.to_string())
}

fn parent(name: &str, below: Vec<Node>) -> Node {
    Node { below, ..node(name) }
}

fn defining(definitions: Vec<Definition>) -> Vec<Node> {
    vec![Node { definitions, ..node("a") }, node("b")]
}

/// Siblings that rise, that are equal, that fall, and a name and its prefix in either order, at depth 0 and below.
fn add_siblings(list: &mut Vec<Vec<u8>>) {
    for (first, second) in [("a", "b"), ("a", "a"), ("b", "a"), ("a", "ab"), ("ab", "a"), ("a", "a!"), ("aa", "b"), ("Z", "a")] {
        let pair = vec![node(first), node(second)];
        list.push(image(&[parent("x", pair.clone()), parent("y", vec![node(first)])]));
        list.push(image(&pair));
    }
}

/// A depth one above the node before, two above, and every depth behind every other.
fn add_depths(list: &mut Vec<Vec<u8>>) {
    let at = |depth: usize| [&[0x01, depth as u8][..], &image(&[node("a")])[2..]].concat();
    for depth in 0..DEPTHS + 1 {
        let chain: Vec<Vec<u8>> = (0..=depth).map(at).collect();
        list.push(chain.concat());
        for next in 0..DEPTHS + 2 {
            list.push([chain.concat(), at(next)].concat());
        }
    }
    list.push(at(1));
}

/// A definition before any node; 32 and 33 options and flags of one node, and of two.
fn add_definitions(list: &mut Vec<Vec<u8>>) {
    let kinds = [Kind::Option { required: true }, Kind::Flag];
    for kind in kinds {
        let some = |count| (0..count).map(|number| plain_definition(kind, number)).collect::<Vec<_>>();
        list.push(frames(&defining(some(1))).split_off(1).concat());
        list.push(image(&defining(some(DEFINITIONS))));
        list.push(image(&defining(some(DEFINITIONS + 1))));
        list.push(image(&[defining(some(20)), vec![Node { definitions: some(20), ..node("c") }]].concat()));
    }
    let full = kinds.map(|kind| (0..DEFINITIONS).map(|number| plain_definition(kind, number)).collect::<Vec<_>>());
    list.push(image(&defining(full.concat())));
}

/// 256 nodes, and one more.
fn add_nodes(list: &mut Vec<Vec<u8>>) {
    let nodes: Vec<Node> = (0..=NODES).map(|number| node(&format!("{number:03}"))).collect();
    list.push(image(&nodes[..NODES]));
    list.push(image(&nodes));
}

/// Texts of lengths about their limits, and with bytes about theirs.
fn add_texts(list: &mut Vec<Vec<u8>>) {
    let lengths = [0, 1, NAME, NAME + 1].map(|length| "n".repeat(length));
    let bytes = [" ", "!", "~", "\u{7F}"].map(|byte| format!("n{byte}"));
    for name in lengths.iter().chain(&bytes) {
        list.push(image(&[node(name)]));
        list.push(image(&defining(vec![Definition { long: Some(name.clone()), ..plain_definition(Kind::Flag, 1) }])));
    }
    let lengths = [0, NOTE, NOTE + 1].map(|length| " ".repeat(length));
    let bytes = ["\u{1F}", " ", "~", "\u{7F}"].map(|byte| format!("a longer text {byte} of 31 bytes"));
    for note in lengths.iter().chain(&bytes) {
        list.push(image(&[Node { description: note.clone(), ..node("a") }]));
        list.push(image(&[Node { usage: Some(note.clone()), ..node("a") }]));
        list.push(image(&defining(vec![Definition { description: note.clone(), ..plain_definition(Kind::Flag, 1) }])));
    }
}

/// Every short, and every number for required.
fn add_numbers(list: &mut Vec<Vec<u8>>) {
    let option = image(&defining(vec![plain_definition(Kind::Option { required: false }, 1)]));
    let second = image(&[node("a")]).len();
    for byte in [0x00, 0x01, 0x02, 0x1F, 0x20, 0x21, 0x7E, 0x7F, 0xFF] {
        for place in [second, second + 1, second + 2] {
            let mut changed = option.clone();
            changed[place] = byte;
            list.push(changed);
        }
    }
}

/// A tree with all kinds of frames cut off everywhere.
fn add_cut(list: &mut Vec<Vec<u8>>) {
    let long = Some("long".to_string());
    let flag = Definition { short: Some(b'l'), long, ..plain_definition(Kind::Flag, 1) };
    let option = Definition { description: "text".to_string(), ..plain_definition(Kind::Option { required: true }, 2) };
    let inner = Node { handler: 258, usage: Some("u".to_string()), definitions: vec![option, flag], ..node("set") };
    let whole = image(&[parent("config", vec![inner]), node("log")]);
    list.extend((0..=whole.len()).map(|end| whole[..end].to_vec()));
}

/// Random trees, and what damage makes of them.
fn add_random(list: &mut Vec<Vec<u8>>) {
    let mut random = Random(SEED);
    let mut trees = 0;
    while trees < RANDOM {
        let frames = frames(&random_tree(&mut random));
        if (1..=RANDOM_BYTES).contains(&frames.concat().len()) {
            trees += 1;
            list.push(frames.concat());
            let damaged = (0..TIMES).map(|_| damaged(&mut random, &frames));
            list.extend(damaged.filter(|image| image.len() <= RANDOM_BYTES));
        }
    }
}

fn all_images() -> Vec<Vec<u8>> {
    let mut list = vec![Vec::new(), image(&Original::tree()), image(&OriginalFs::tree())];
    add_siblings(&mut list);
    add_depths(&mut list);
    add_definitions(&mut list);
    add_nodes(&mut list);
    add_texts(&mut list);
    add_numbers(&mut list);
    add_cut(&mut list);
    add_random(&mut list);
    list
}

/// The images that replay_tree builds itself: the longest, one byte more, one less, and a fault in the last node.
fn long_images() -> [Vec<u8>; 4] {
    let node = |number| Node {
        description: "Of two hundred fifty-six nodes, each of which has a frame of one hundred and twenty-eight bytes.".to_string(),
        usage: Some("And a usage to fill it.".to_string()),
        ..plain_node(format!("{number:02x}"))
    };
    let mut tree: Vec<Node> = (0..NODES).map(node).collect();
    let longest = image(&tree);
    assert_eq!(longest.len(), BYTES);
    tree[NODES - 1].name = "fe".to_string();
    [longest.clone(), [&longest[..], &[0]].concat(), longest[..BYTES - 1].to_vec(), image(&tree)]
}

/// What is to be written for an image: its length, and what it is.
fn answer(image: &[u8]) -> String {
    match read(image) {
        Ok(_) => format!("{} good\n", image.len()),
        Err(number) => format!("{} bad {number}\n", image.len()),
    }
}

/// What is to be written for the file of a tree: replay_tree makes its lines again and compares them.
fn held(name: &str, tree: &[Node]) -> String {
    format!("{name} holds the tree of {}\n", image(tree).len())
}

fn main() {
    let folder = std::env::args().nth(1).expect("the folder of replay_tree");
    let images = all_images();
    let input: String = images.iter().map(|image| hex(image) + "\n").collect();
    let files = held("base.tree", &Original::tree()) + &held("fs.tree", &OriginalFs::tree());
    let output: String = images.iter().chain(&long_images()).map(|image| answer(image)).collect();
    assert!(input.len() < 65_536, "replay_tree reads at most 65,535 bytes");
    std::fs::write(format!("{folder}/stdin"), &input).expect("stdin is written");
    std::fs::write(format!("{folder}/stdout"), files + &output).expect("stdout is written");
    println!("{} images; {} and {} bytes", images.len(), input.len(), output.len());
}
