// Quoting: the library against the rule of the standard, and its lines against the original's tokenize.
use crate::buffers::Expected;
use crate::frames;
use crate::lines::{Mixer, every_character, every_line};
use crate::part::Part;
use crate::words::{LIMIT, too_long};
use original::Original;

const SHORT: usize = 4;
const SHORT_PAIR: usize = 2;
const MIXED: usize = 300_000;
const SEED: u64 = 0x7175_6F74_6500_0001;

/// One word as it stands in a line.
fn quoted(word: &str) -> String {
    if !word.contains(|c: char| c.is_whitespace() || c == '"' || c == '\\') {
        return word.to_string();
    }
    format!("\"{}\"", word.replace('\\', "\\\\").replace('"', "\\\""))
}

fn line_of(words: &[String]) -> String {
    words.iter().map(|word| quoted(word)).collect::<Vec<_>>().join(" ")
}

fn expected(words: &Result<Vec<String>, usize>) -> Expected {
    match words {
        Err(number) => Expected::Refusal { number: 10, value: *number as u64 },
        Ok(words) => match line_of(words) {
            line if line.len() > LIMIT => too_long(line.len()),
            line => Expected::Bytes(line.into_bytes()),
        },
    }
}

/// Compares the line that the library writes for a list; the original has to split it into the words of the list again.
fn check(part: &mut Part, list: &[u8]) {
    part.input(list);
    let words = frames::words(list);
    let expected = expected(&words);
    let same = part.check(|out| calls::quote(list, out), &expected);
    if let (true, Ok(words), Expected::Bytes(line)) = (same, words, expected) {
        let line = String::from_utf8(line).expect("a line made of texts");
        part.same(&words, &Original::tokenize(&line));
    }
}

/// Every list of one short word, and every pair of shorter ones: empty and ill-formed words are among them.
pub fn short_words(part: &mut Part) {
    every_line(SHORT, &mut |word| check(part, &frames::of(&[word])));
    every_line(SHORT_PAIR, &mut |first| {
        every_line(SHORT_PAIR, &mut |second| check(part, &frames::of(&[first, second])));
    });
}

/// Every character as a word, and between letters.
pub fn every_one(part: &mut Part) {
    for character in every_character() {
        check(part, &frames::of(&[format!("{character}"), format!("a{character}b")]));
    }
}

/// A list of three words with each byte changed in all ways, and cut off at every place.
pub fn broken_frames(part: &mut Part) {
    let list = frames::of(&["ab", "c \"d\\", "é"]);
    for place in 0..=list.len() {
        check(part, &list[..place]);
    }
    for place in 0..list.len() {
        for byte in 0..=255 {
            let mut changed = list.clone();
            changed[place] = byte;
            check(part, &changed);
        }
    }
}

/// Lines about the longest that is written and about the greatest value; the same with a broken word behind, which is
/// the first to be refused.
pub fn limits(part: &mut Part) {
    for length in (1_010..1_040).chain(65_520..65_535) {
        for byte in [b'a', b' ', b'"', b'\\'] {
            let mut word = vec![byte; length];
            check(part, &frames::of(&[&word]));
            word.truncate(length / 2);
            let mut pair = frames::of(&[&word, &word]);
            check(part, &pair);
            pair.push(frames::WORD);
            check(part, &pair);
        }
    }
    let ones = vec!["a"; 70_000];
    for count in [511, 512, 513, 514, 32_767, 32_768, 32_769, 65_535, 65_536, 70_000] {
        let mut list = frames::of(&ones[..count]);
        check(part, &list);
        list.push(frames::WORD);
        check(part, &list);
    }
}

pub fn mixed_lists(part: &mut Part) {
    let mut mixer = Mixer::new(SEED);
    for turn in 0..MIXED {
        let list = if turn % 3 == 0 { words_of_a_line(&mut mixer) } else { mixed_list(&mut mixer) };
        check(part, &list);
    }
}

/// The words that the original finds in a mixed line.
fn words_of_a_line(mixer: &mut Mixer) -> Vec<u8> {
    let length = mixer.random.below(LIMIT + 1);
    frames::of(&Original::tokenize(&mixer.text(length)))
}

/// Up to twelve words of up to 200 bytes. In every fourth list words can be empty or ill-formed, and bytes of the list changed.
fn mixed_list(mixer: &mut Mixer) -> Vec<u8> {
    let mut list = Vec::new();
    let longest = mixer.random.pick(&[5, 20, 90, 200]);
    let damaged = mixer.random.once_in(4);
    for _ in 0..mixer.random.below(13) {
        let least = usize::from(!damaged);
        let length = least + mixer.random.below(longest);
        let mut word = mixer.text(length).into_bytes();
        if damaged && mixer.random.once_in(8) {
            mixer.damage(&mut word);
        }
        frames::push(&mut list, &word);
    }
    if damaged && mixer.random.once_in(2) {
        mixer.damage(&mut list);
    }
    list
}
