// The lines to time: of a given length, of three kinds, and as the quoting writer writes them.

/// A kind of line: its name, and the words that come in turn until the line is full, as they stand in it.
pub type Kind = (&'static str, &'static [&'static str]);

pub const KINDS: [Kind; 3] = [
    ("plain ASCII", &["vm", "create", "--config", "linux-x86_64.toml", "-n", "2", "start", "--detach"]),
    ("quoted and escaped", &[r#""a b""#, r#""say \"hi\"""#, "echo", r#""C:\\x\\y z""#, r#""\\""#]),
    ("non-ASCII letters", &["größe", "ядро", "語彙", "ভাষা", "naïveté", "команда", "𐌰𐌱"]),
];

pub const LENGTHS: [usize; 3] = [20, 250, 1_024];

/// A line of exactly this length. Its last word is made of as many letters as are left.
pub fn line(words: &[&str], length: usize) -> String {
    let mut line = String::new();
    for word in words.iter().cycle() {
        if line.len() + word.len() + " x".len() > length {
            break;
        }
        line.push_str(word);
        line.push(' ');
    }
    while line.len() < length {
        line.push('x');
    }
    line
}
