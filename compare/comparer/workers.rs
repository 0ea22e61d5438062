// Runs the parts, two at a time, and prints their rows in the order of the parts.
use crate::part::{Part, Row};
use std::collections::BTreeMap;
use std::sync::atomic::{AtomicUsize, Ordering};
use std::sync::mpsc::{Receiver, channel};
use std::thread;

const WORKERS: usize = 2;

/// Gives back the first difference of the first part that has one.
pub fn run(parts: &[(&'static str, fn(&mut Part))]) -> Option<String> {
    let next = &AtomicUsize::new(0);
    let (tell, told) = channel();
    thread::scope(|scope| {
        for _ in 0..WORKERS {
            let tell = tell.clone();
            scope.spawn(move || {
                let take = || next.fetch_add(1, Ordering::Relaxed);
                while let Some((number, &(name, compare))) = Some(take()).and_then(|n| Some((n, parts.get(n)?))) {
                    // in a thread of its own the original begins with its own tree
                    let row = thread::spawn(move || compared(name, compare)).join().expect("a part comes to its end");
                    tell.send((number, row)).expect("rows are printed as long as there are parts");
                }
            });
        }
        drop(tell);
        print(told)
    })
}

fn compared(name: &'static str, compare: fn(&mut Part)) -> Row {
    let mut part = Part::new(name);
    compare(&mut part);
    part.end()
}

fn print(told: Receiver<(usize, Row)>) -> Option<String> {
    let mut early = BTreeMap::new();
    let mut first = None;
    let mut printed = 0;
    for (number, row) in told {
        early.insert(number, row);
        while let Some(row) = early.remove(&printed) {
            println!("{}", row.counts);
            first = first.or(row.difference);
            printed += 1;
        }
    }
    first
}
