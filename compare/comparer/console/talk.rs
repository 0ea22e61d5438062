// Sessions in which the program is waited for: a line is sent when what the lines before it print has come, or nobody reads what is printed.
use super::program::{PATIENCE, program, start, started};
use super::told::told;
use super::{key_lines, session};
use crate::part::Part;
use crate::planting::{Tree, examples};
use std::fs::File;
use std::io::{Read, Write};
use std::process::{Child, Command, Stdio};
use std::thread::sleep;
use std::time::{Duration, Instant};

/// Every line's frames come before the next line is sent.
pub fn dialogues(part: &mut Part) {
    let Tree(tree) = examples();
    let keys = b"help\rlog a\rvm start -f\x1B[A\x1B[D\x08\r\x01\r".as_slice();
    for length in [1, 2, 7, 100] {
        let input = session(&tree, b"") + &key_lines(keys, length) + &key_lines(b"exit\r", length);
        part.input(input.as_bytes());
        let difference = talk(&input);
        part.called(false, difference);
    }
}

fn talk(input: &str) -> Option<String> {
    let (mut child, mut printed) = start(&[], Stdio::piped());
    let mut stdin = child.stdin.take().expect("a pipe");
    let (mut sent, mut seen) = (String::new(), 0);
    for line in input.split_inclusive('\n') {
        stdin.write_all(line.as_bytes()).expect("the program reads");
        sent += line;
        let expected = told(sent.as_bytes()).output;
        let mut found = vec![0; expected.len() - seen];
        let read = printed.read_exact(&mut found);
        if read.is_err() || found != expected.as_bytes()[seen..] {
            child.kill().expect("the program is ended");
            child.wait().expect("a status");
            return Some(format!("line:     {line}expected:\n{}", &expected[seen..]));
        }
        seen = expected.len();
    }
    has_ended(child)
}

/// A program whose output takes nothing comes to its end, with its input open: the reader is gone, with and without the signal, or the disk is full.
pub fn closed_outputs(part: &mut Part) {
    let Tree(tree) = examples();
    let deaf = || {
        let mut shell = Command::new("sh");
        shell.args(["-c", "trap '' PIPE; exec \"$0\""]).arg(program().get_program());
        shell
    };
    let ways: [fn(Command) -> Child; 2] = [reader_gone, disk_full];
    for keys in [&b"a"[..], b"\r", b"help\rlog\r", &b"help\r".repeat(90)] {
        let input = session(&tree, keys);
        for (way, command) in ways.into_iter().flat_map(|way| [(way, program()), (way, deaf())]) {
            part.input(input.as_bytes());
            let mut child = way(command);
            let mut stdin = child.stdin.take().expect("a pipe");
            stdin.write_all(input.as_bytes()).expect("the program reads");
            let difference = has_ended(child);
            part.called(false, difference);
        }
    }
}

fn reader_gone(mut command: Command) -> Child {
    started(command.stdin(Stdio::piped()).stdout(Stdio::piped()), |child| drop(child.stdout.take()))
}

fn disk_full(mut command: Command) -> Child {
    let full = File::create("/dev/full").expect("a disk that is full");
    started(command.stdin(Stdio::piped()).stdout(full), |_| ())
}

/// Waits for the end of a program whose input is held open by the caller.
fn has_ended(mut child: Child) -> Option<String> {
    let start = Instant::now();
    while start.elapsed() < PATIENCE {
        if child.try_wait().expect("a status").is_some() {
            return None;
        }
        sleep(Duration::from_millis(1));
    }
    child.kill().expect("the program is ended");
    child.wait().expect("a status");
    Some("the program does not end".to_string())
}
