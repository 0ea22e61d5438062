// The marked examples of the standard, M1 to M8: the words stated there, by the original and by the library.
use crate::part::Part;
use crate::words;
use original::Original;

const MARKED: [(&str, &[&str]); 8] = [
    ("", &[]),
    ("\"\"", &[]),
    ("a\\", &["a"]),
    ("a \"b c\" d", &["a", "b c", "d"]),
    ("a\"b\"c", &["abc"]),
    ("\"a\\\"b\"", &["a\"b"]),
    ("a\u{A0}b", &["a", "b"]),
    ("a \"b", &["a", "b"]),
];

pub fn compare(part: &mut Part) {
    for (line, stated) in MARKED {
        words::check(part, line.as_bytes());
        part.same(stated, &Original::tokenize(line));
    }
}
