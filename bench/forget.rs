// Forgetting the oldest and the newest entry of a full history, beside a key with the same history.
use crate::keys::{ADDED, ENTRIES, LINES, Ours, entries};
use crate::table::forget_row;
use crate::timing::medians;
use std::hint::black_box;

const OLDEST: usize = 0;
const NEWEST: usize = ENTRIES - 1;

/// State and slots are put back before each call. That is timed alone as well, and taken off.
pub fn rows() {
    let line = vec![b'a'; LINES[0]];
    for (history, kind, bytes) in ADDED {
        let full = Ours::new(&line, kind, bytes);
        let entries: Vec<String> = entries(kind, bytes).collect();
        agree(full.clone(), OLDEST, &entries[1..]);
        agree(full.clone(), NEWEST, &entries[..NEWEST]);
        let [mut copied, mut keyed, mut oldest, mut newest] = [(); 4].map(|()| full.clone());
        let mut copy = || black_box(&mut copied).put_back(black_box(&full));
        let mut key = || {
            keyed.put_back(black_box(&full));
            keyed.press();
        };
        let mut forget_oldest = || {
            oldest.put_back(black_box(&full));
            oldest.forget(OLDEST);
        };
        let mut forget_newest = || {
            newest.put_back(black_box(&full));
            newest.forget(NEWEST);
        };
        let [copy, key, oldest, newest] = medians([&mut copy, &mut key, &mut forget_oldest, &mut forget_newest]);
        forget_row(history, "the oldest", copy, key - copy, oldest - copy);
        forget_row(history, "the newest", copy, key - copy, newest - copy);
    }
}

/// What is timed must leave these entries.
fn agree(mut full: Ours, number: usize, left: &[String]) {
    full.forget(number);
    assert!(left.iter().map(String::as_bytes).eq(full.entries()));
}
