// Frames: a kind, and texts, each behind its length in 16 bits with the high byte first. A word is a frame of kind 14.
pub const WORD: u8 = 0x14;

/// Adds a frame of this kind. A text of more than 65,535 bytes has no frame.
pub fn add(list: &mut Vec<u8>, kind: u8, texts: &[&[u8]]) {
    list.push(kind);
    for text in texts {
        let length = u16::try_from(text.len()).expect("a text fits in a frame");
        list.extend(length.to_be_bytes());
        list.extend(*text);
    }
}

/// Adds one word.
pub fn push(list: &mut Vec<u8>, word: &[u8]) {
    add(list, WORD, &[word]);
}

pub fn of(words: &[impl AsRef<[u8]>]) -> Vec<u8> {
    let mut list = Vec::new();
    for word in words {
        push(&mut list, word.as_ref());
    }
    list
}

/// The words of a list, or the number from 0 of the first that is broken, empty or ill-formed.
pub fn words(mut list: &[u8]) -> Result<Vec<String>, usize> {
    let mut words = Vec::new();
    while !list.is_empty() {
        let [WORD, high, low, rest @ ..] = list else { return Err(words.len()) };
        let length = usize::from(u16::from_be_bytes([*high, *low]));
        let (Some(word @ [_, ..]), Some(rest)) = (rest.get(..length), rest.get(length..)) else {
            return Err(words.len());
        };
        words.push(String::from_utf8(word.to_vec()).map_err(|_| words.len())?);
        list = rest;
    }
    Ok(words)
}
