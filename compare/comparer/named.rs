// Streams of keys that are each there for a reason: escapes, control bytes, characters split, histories, limits.

const UP: &str = "\x1B[A";
const DOWN: &str = "\x1B[B";
const RIGHT: &str = "\x1B[C";
const LEFT: &str = "\x1B[D";

/// The smallest inputs on which ECMA-48 and the original part (docs/DIFFERENCES.md).
fn parting(list: &mut Vec<Vec<u8>>) {
    let keys = [&b"\x1B[3~"[..], b"\x1B[1A", b"\x1BOA", b"\x1B\x1B[", b"a\x1B\r", b"\x9B", b"a\x08"];
    list.extend(keys.map(<[u8]>::to_vec));
    list.push(format!("é{LEFT}{LEFT}x").into_bytes());
}

/// Escapes: whole, ended early, and gone on with. Then a letter shows what is typed.
fn escapes(list: &mut Vec<Vec<u8>>) {
    for escape in [
        "\x1B",
        "\x1B[",
        "\x1B\x1B[A",
        "\x1B[\x1B[A",
        "\x1B\r",
        "\x1B[\r",
        "\x1B[\n",
        "\x1B\x08",
        "\x1B[\x7F",
        "\x1B[3~",
        "\x1B[3",
        "\x1B[H",
        "\x1BOA",
        "\x1B[1;5C",
        "\x1B[[A",
        "\x1Bx",
        "\x1B\x1B",
        "\x1B[\x1B",
        UP,
        DOWN,
        LEFT,
        RIGHT,
    ] {
        list.push(format!("old\rab{escape}zz\r").into_bytes());
    }
}

/// Every byte that is no letter, inside of a line.
fn bytes(list: &mut Vec<Vec<u8>>) {
    for byte in (0..0x20).chain([0x7F, 0x80, 0x9B, 0xC0, 0xFF]) {
        list.push([b"ab", LEFT.as_bytes(), &[byte], b"c"].concat());
    }
}

/// Characters of several bytes: typed, split by the cursor, and made whole again.
fn characters(list: &mut Vec<Vec<u8>>) {
    for text in ["é", "aé", "語", "😀b"] {
        list.push(format!("{text}{LEFT}x\x08{RIGHT}y\r{UP}").into_bytes());
        list.push(format!("{text}{LEFT}{LEFT}x\r{UP}").into_bytes());
        list.push(format!("{text}\x7F\x7F\x7F\x7F\x7Fb\r").into_bytes());
    }
    list.push(b"a\xE8\x9E\x1B[D\xAA\r\x1B[A".to_vec());
}

/// History: blank, equal, spaced and ill-formed lines; the place after each kind of Enter; arrows at both ends.
fn history(list: &mut Vec<Vec<u8>>) {
    for keys in [
        "\r",
        "\n",
        "\r\n",
        " \r",
        "  \r\u{A0}\r\u{3000} \r",
        "\u{200B}\r",
        "a\ra\r",
        "a\rb\ra\r",
        "a\ra \r a\ra\r",
        "a\r\r\n",
        "log\r",
        "help\rclear\rlog\r",
        "help log\rhelp  x\r",
    ] {
        list.push(keys.as_bytes().to_vec());
    }
    let ends = ["\x08\rx", "\x08 \rx", "\r", "y\r", "\x08\x08\r\r", "a\n"];
    for steps in [String::new(), UP.into(), UP.repeat(2), UP.repeat(3), format!("{}{DOWN}", UP.repeat(2)), DOWN.into()]
    {
        list.push(format!("a\rb\r{steps}{DOWN}{DOWN}").into_bytes());
        for end in ends {
            list.push(format!("a\rb\r{steps}{end}{UP}{UP}").into_bytes());
        }
        list.push([b"a\rb\r", steps.as_bytes(), b"\x08\xC3\r", UP.as_bytes(), b"z"].concat());
    }
}

/// The longest line, bytes that are dropped at its end and inside, and 103 lines.
fn limits(list: &mut Vec<Vec<u8>>) {
    list.push(format!("{}bc\x08d{LEFT}ef\x7Fgh\r{UP}", "a".repeat(254)).into_bytes());
    for back in [9, 10, 99, 100] {
        list.push(format!("{}{}b\x08", "a".repeat(100), LEFT.repeat(back)).into_bytes());
    }
    let lines: String = (0..103).map(|number| format!("{number:x}\r")).collect();
    list.push(format!("{lines}{}{}", UP.repeat(102), DOWN.repeat(3)).into_bytes());
}

/// The control sequences that act.
const ACTING: [&str; 17] =
    ["A", "B", "C", "D", "H", "F", "1A", "1B", "1C", "1D", "1H", "1F", "1~", "7~", "4~", "8~", "3~"];

/// Control sequences that do nothing: no digit that says something alone, several parameters, a sign, intermediates, other final
/// bytes, 15 and 16 bytes, and such as are broken off.
const IDLE: [&str; 27] = [
    "~",
    "0A",
    "2A",
    "01A",
    "11A",
    "1;5A",
    ";A",
    "?A",
    " A",
    "1 A",
    " 1A",
    "3A",
    "7H",
    "4F",
    "01~",
    "03~",
    "30~",
    "3;5~",
    "3 ~",
    "5~",
    "@",
    "1z",
    "3\r",
    "3\x1B",
    "3\x7F",
    "111111111111111A",
    "3333333333333333~",
];

/// Streams of ECMA-48's keys: what acts at the begin, in the middle and at the end of a line; what does nothing; characters that
/// are split and made whole again; the profile behind Enter; arrows with a parameter and without.
pub fn sequences() -> Vec<Vec<u8>> {
    let mut list: Vec<Vec<u8>> = Vec::new();
    let mut add = |keys: String| list.push(keys.into_bytes());
    for bytes in ACTING {
        add(format!("old\rab{LEFT}\x1B[{bytes}z\x1B[H\x1B[{bytes}y\x1B[F\x1B[{bytes}x"));
    }
    IDLE.iter().for_each(|bytes| add(format!("old\rab{LEFT}\x1B[{bytes}z")));
    for text in ["é", "語b"] {
        add(format!("{text}\x1B[H\x1B[3~\x1B[3~x\x1B[Fy\r{UP}"));
        add(format!("{text}{LEFT}\x1B[3~\x1B[1~\x1B[3~\x1B[3~\x1B[3~\x1B[4~z\r"));
        add(format!("{text}{LEFT}{LEFT}\x1B[3~\x1B[3~\r{UP}"));
    }
    for keys in ["", "a", "ab\x1B[H", "ab\x1B[7~"] {
        add(format!("{keys}\x1B[3~\x1B[H\x1B[3~\x1B[3~\x1B[F\x1B[Hx"));
    }
    add(format!("a\r\x1B[Hb\n\x1B[1A\x1B[1A\x1B[3~c\x1B[1B{DOWN}{UP}\x1B[H\x1B[1C\x1B[1Dx\r"));
    add(format!("a\rb\r{UP}{UP}\x1B[1A\x1B[1B{DOWN}\x1B[1B\x1B[1Ay\r\x1B[1A"));
    add(format!("a\rb\r\x1B[2A\x1B[1;1A\x1B[01B\x1B[1A\r"));
    for broken in
        ["\x1B\x1B[H", "\x1B[\x1B[H", "\x1B[1\x1B[H", "\x1BOH", "\x1B[\r\r", "\x1B[1;\nz\r", "\x1B[[H", "\x1B["]
    {
        add(format!("ab{broken}z"));
    }
    for count in [14, 15, 16] {
        add(format!("ab\x1B[{}Az", ";".repeat(count)));
        add(format!("ab\x1B[{}\rz\r", " ".repeat(count)));
    }
    list.push(b"ab\x1B[D\x1B[3\x9B~z".to_vec());
    list.push(b"ab\x9BHz\x1B[H\xC3\x1B[3~\xA9\x1B[3~\r".to_vec());
    list.push(b"\xC3\xA9\x1B[D\x1B[3~\xA9\x1B[H\x1B[3~\xE9\x1B[8~\xFF\r".to_vec());
    list
}

pub fn named() -> Vec<Vec<u8>> {
    let mut list = Vec::new();
    for add in [parting, escapes, bytes, characters, history, limits] {
        add(&mut list);
    }
    list
}
