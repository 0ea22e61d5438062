// Ways to damage an image: its frames, or its bytes.
use crate::random::Random;
use forest::{NODES, Node};

/// Bytes that a rule names, and their neighbours.
const EDGES: [u8; 16] = [0x00, 0x01, 0x02, 0x03, 0x04, 0x07, 0x08, 0x1F, 0x20, 0x21, 0x60, 0x61, 0x7E, 0x7F, 0x80, 0xFF];

/// An image that is damaged in one to three ways.
pub fn damaged(random: &mut Random, frames: &[Vec<u8>]) -> Vec<u8> {
    let mut frames = frames.to_vec();
    let ways = 1 + random.below(3);
    for _ in 0..ways {
        damage_frames(random, &mut frames);
    }
    let mut image = frames.concat();
    if random.once_in(3) {
        damage_bytes(random, &mut image);
    }
    image
}

/// Damages frames in one way.
pub fn damage_frames(random: &mut Random, frames: &mut Vec<Vec<u8>>) {
    if frames.is_empty() {
        return;
    }
    if random.once_in(100) {
        return crowd(random, frames);
    }
    let place = random.below(frames.len());
    let other = random.below(frames.len());
    let next = (place + 1) % frames.len();
    match random.below(10) {
        0 => frames.swap(place, other),
        1 => frames.swap(place, next),
        2 => frames.insert(other, frames[place].clone()),
        3 => _ = frames.remove(place),
        4 => again(random, frames, place),
        5 => change_depth(random, &mut frames[place]),
        6 => borrow_name(random, frames, place),
        7 => change_name(random, &mut frames[place]),
        8 => lengthen(random, &mut frames[place]),
        _ => change_head(random, &mut frames[place]),
    }
}

/// Siblings that rise behind all others, until there are about as many nodes as there may be.
fn crowd(random: &mut Random, frames: &mut Vec<Vec<u8>>) {
    let nodes = frames.iter().filter(|frame| frame[0] == 0x01).count();
    let most = NODES - 1 + random.below(3);
    let named = |number| Node { name: format!("~~~{number:03}"), ..Node::default() };
    let more: Vec<Node> = (nodes..most).map(named).collect();
    frames.extend(forest::frames(&more));
}

/// So many frames more of the same, about the most definitions that a node may have.
fn again(random: &mut Random, frames: &mut Vec<Vec<u8>>, place: usize) {
    let times = 29 + random.below(5);
    let frame = frames[place].clone();
    frames.splice(place..place, std::iter::repeat_n(frame, times));
}

/// A depth one more or one less, or any about the greatest.
fn change_depth(random: &mut Random, frame: &mut [u8]) {
    if frame[0] == 0x01 {
        frame[1] = match random.below(3) {
            0 => frame[1] + 1,
            1 => frame[1].saturating_sub(1),
            _ => random.below(10) as u8,
        };
    }
}

/// The name of the last frame before it of the same kind: as it is, without its last byte, or with one more.
fn borrow_name(random: &mut Random, frames: &mut [Vec<u8>], place: usize) {
    let kind = frames[place][0];
    let before = frames[..place].iter().rev().find(|frame| frame[0] == kind);
    if let Some(mut name) = before.and_then(|frame| name_of(frame)) {
        match random.below(3) {
            0 => {}
            1 => _ = name.pop(),
            _ => name.push(random.pick(&EDGES)),
        }
        set_name(&mut frames[place], &name);
    }
}

/// A name of other bytes, or about the longest or the shortest.
fn change_name(random: &mut Random, frame: &mut Vec<u8>) {
    let length = random.pick(&[0, 1, 2, 31, 32, 33, 254, 255]);
    let mut name = vec![random.pick(b"ab~!"); length];
    if let Some(last) = name.last_mut() {
        *last = random.pick(&EDGES);
    }
    set_name(frame, &name);
}

/// The text that ends a frame made longer, to about the longest that it may be. Of nodes only those without a usage get one.
fn lengthen(random: &mut Random, frame: &mut Vec<u8>) {
    if frame[0] == 0x01 && frame.last() != Some(&0xFF) {
        return;
    }
    let length = random.pick(&[95, 96, 97, 254]);
    let at = match frame[0] {
        0x01 => frame.len() - 1,
        _ => last_text(frame),
    };
    frame.truncate(at);
    frame.push(length);
    frame.extend(std::iter::repeat_n(b' ', usize::from(length)));
}

/// Where the description of an option or a flag has its length byte.
fn last_text(frame: &[u8]) -> usize {
    let name = name_place(frame);
    let long = name + 1 + usize::from(frame[name]);
    match frame.get(long) {
        Some(0xFF) => long + 1,
        Some(&length) => (long + 1 + usize::from(length)).min(frame.len()),
        None => frame.len(),
    }
}

/// One of the first bytes: kind, depth, required, short, a length.
fn change_head(random: &mut Random, frame: &mut [u8]) {
    let place = random.below(frame.len().min(6));
    frame[place] = random.pick(&EDGES);
}

fn name_place(frame: &[u8]) -> usize {
    match frame[0] {
        0x01 => 4,
        0x02 => 3,
        _ => 2,
    }
}

/// The name of a frame, if damage has left it one.
fn name_of(frame: &[u8]) -> Option<Vec<u8>> {
    let (&length, rest) = frame.get(name_place(frame)..)?.split_first()?;
    rest.get(..usize::from(length)).map(<[u8]>::to_vec)
}

/// Puts another name in the place of a frame's own.
fn set_name(frame: &mut Vec<u8>, name: &[u8]) {
    let place = name_place(frame);
    if let (Some(old), Ok(length)) = (name_of(frame), u8::try_from(name.len())) {
        frame.splice(place..place + 1 + old.len(), std::iter::once(length).chain(name.iter().copied()));
    }
}

fn damage_bytes(random: &mut Random, image: &mut Vec<u8>) {
    if image.is_empty() {
        return;
    }
    let place = random.below(image.len());
    match random.below(5) {
        0 => image.truncate(place),
        1 => image[place] = random.below(256) as u8,
        2 => image[place] = random.pick(&EDGES),
        3 => _ = image.remove(place),
        _ => image.insert(place, random.pick(&EDGES)),
    }
}
