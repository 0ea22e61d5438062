// The program `console` with an input that comes in pieces, and what it prints.
use std::env;
use std::io::{Read, Write};
use std::os::fd::OwnedFd;
use std::os::unix::net::{UnixDatagram, UnixStream};
use std::process::{Child, Command, Stdio};
use std::sync::Mutex;
use std::thread;
use std::time::Duration;

/// So long nothing is printed by a program that goes on waiting.
pub const PATIENCE: Duration = Duration::from_secs(30);

/// How an input comes to the program.
#[derive(Clone, Copy)]
pub enum Feed<'a> {
    /// Through a pipe, as fast as it takes it.
    Pipe,
    /// In pieces of these lengths in turn, each of them one read.
    Pieces(&'a [usize]),
}

/// The program that is compared.
pub fn program() -> Command {
    Command::new(env::var_os("RISSEMAT_CONSOLE").expect("RISSEMAT_CONSOLE names the program"))
}

/// The program, started with these words, and the other end of its output.
pub fn start(words: &[&str], stdin: impl Into<Stdio>) -> (Child, UnixStream) {
    let (printed, stdout) = UnixStream::pair().expect("two ends");
    printed.set_read_timeout(Some(PATIENCE)).expect("a time to wait");
    let child = started(program().args(words).stdin(stdin).stdout(OwnedFd::from(stdout)), |_| ());
    (child, printed)
}

/// Starts a program, and does what has to be done before the next is started: until it runs by itself a program has a copy of every end that is open here.
pub fn started(command: &mut Command, first: impl FnOnce(&mut Child)) -> Child {
    static STARTING: Mutex<()> = Mutex::new(());
    let _alone = STARTING.lock().expect("no start has failed");
    let mut child = command.spawn().expect("the program starts");
    first(&mut child);
    child
}

/// What the program prints with these words, up to its end. An input that is held open doesn't end.
pub fn output(words: &[&str], input: &[u8], feed: Feed, open: bool) -> Result<Vec<u8>, String> {
    match feed {
        Feed::Pipe => {
            let (mut child, printed) = start(words, Stdio::piped());
            let mut stdin = child.stdin.take().expect("a pipe");
            let write = move || {
                // a program that has ended takes no more
                let _ = stdin.write_all(input);
                open.then_some(stdin)
            };
            ended(child, printed, write)
        }
        Feed::Pieces(lengths) => {
            let (sender, stdin) = UnixDatagram::pair().expect("two ends");
            let (child, printed) = start(words, OwnedFd::from(stdin));
            ended(child, printed, move || {
                let _ = pieces(input, lengths).try_for_each(|piece| sender.send(piece).map(drop));
                // an empty one is read as the input's end
                let _ = if open { Ok(0) } else { sender.send(&[]) };
                sender
            })
        }
    }
}

fn pieces<'a>(input: &'a [u8], lengths: &'a [usize]) -> impl Iterator<Item = &'a [u8]> {
    let mut left = input;
    lengths.iter().cycle().map_while(move |&length| {
        let (piece, rest) = left.split_at(length.min(left.len()));
        left = rest;
        (!piece.is_empty()).then_some(piece)
    })
}

/// Has the input written while the output is read. What is written with is kept until the program has ended.
fn ended<T: Send>(
    mut child: Child,
    mut printed: UnixStream,
    write: impl FnOnce() -> T + Send,
) -> Result<Vec<u8>, String> {
    thread::scope(|scope| {
        let writing = scope.spawn(write);
        let mut output = Vec::new();
        let read = printed.read_to_end(&mut output);
        if read.is_err() {
            child.kill().expect("the program is ended");
        }
        let status = child.wait().expect("a status");
        drop(writing.join().expect("the input is written"));
        match read {
            Err(_) => Err(format!("the program does not end; printed {}", String::from_utf8_lossy(&output))),
            Ok(_) if !status.success() => Err(format!("the program ended with {status}")),
            Ok(_) => Ok(output),
        }
    })
}
