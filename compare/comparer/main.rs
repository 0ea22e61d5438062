// Compares the proved library with the original shell and with the rules of the standard, part by part.
mod begun;
mod buffers;
mod console;
mod damage;
mod firsts;
mod forget;
mod forgetful;
mod frames;
mod help;
mod history;
mod keys;
mod lent;
mod lines;
mod marked;
mod model;
mod named;
mod parse;
mod part;
mod planting;
mod prompts;
mod quote;
mod ran;
mod random;
mod reports;
mod run;
mod sequences;
mod session;
mod shell;
mod states;
mod steps;
mod streams;
mod totals;
mod tree;
mod trees;
mod watched;
mod words;
mod workers;

use part::Part;
use std::process::ExitCode;

const PARTS: [(&str, fn(&mut Part)); 88] = [
    ("session: the original under keys", session::compare),
    ("marked: M1 to M8", marked::compare),
    ("words: every short line", words::short_lines),
    ("words: every character", words::every_one),
    ("words: lines about the limits", words::limits),
    ("words: mixed lines", words::mixed_lines),
    ("quote: every short word and pair", quote::short_words),
    ("quote: every character", quote::every_one),
    ("quote: frames broken in all ways", quote::broken_frames),
    ("quote: lists about the limits", quote::limits),
    ("quote: mixed lists", quote::mixed_lists),
    ("history: every short text", history::short_texts),
    ("history: white space", history::blank_texts),
    ("history: texts about the limits", history::long_texts),
    ("history: mixed texts", history::mixed_texts),
    ("history: full ones", history::full_ones),
    ("history: begun at every slot", begun::histories),
    ("forget: every short history", forget::short_ones),
    ("forget: begun at every slot", forget::every_slot),
    ("forget: full ones, without trace", forget::full_ones),
    ("forget: room that comes back", forgetful::room),
    ("forget: among texts", forgetful::texts),
    ("forget: among the Rust's keys", forgetful::rust_keys),
    ("forget: among ECMA-48's keys", forgetful::ecma48_keys),
    ("keys: named streams", keys::named_streams),
    ("keys: every short stream", keys::short_streams),
    ("keys: every byte in every mode", keys::every_byte),
    ("keys: streams about the limits", keys::limits),
    ("keys: mixed streams", keys::mixed_streams),
    ("keys: mixed streams with fs", keys::mixed_streams_fs),
    ("keys: alike in both profiles", keys::alike),
    ("keys: begun at every slot", begun::keys),
    ("keys: prompts", prompts::compare),
    ("sequences: every short one", sequences::short_ones),
    ("sequences: each byte in each mode", sequences::every_byte),
    ("sequences: long ones", sequences::long_ones),
    ("sequences: named streams", sequences::named_streams),
    ("sequences: mixed streams", sequences::mixed_streams),
    ("states: every byte of the head", states::heads),
    ("states: lengths, cursors, places", states::pairs),
    ("states: profiles and sequences", states::sequences),
    ("states: mixed damage", states::mixed),
    ("states: every byte of the slots", states::slots),
    ("states: entries that are bad", states::entries),
    ("states: every total", totals::every),
    ("states: totals about the right one", totals::about),
    ("states: first slots", firsts::compare),
    ("states: buffers of other lengths", states::lengths),
    ("states: whatever is forgotten", states::forgetting),
    ("tree: the original's own trees", tree::original_trees),
    ("tree: random trees", tree::random_trees),
    ("tree: damaged images", tree::damaged_images),
    ("tree: every byte changed", tree::every_byte),
    ("tree: images about the limits", tree::limits),
    ("parse: M9 to M14", parse::marked_lines),
    ("parse: named trees", parse::named_trees),
    ("parse: random trees", parse::random_trees),
    ("parse: long lines", parse::long_lines),
    ("parse: refusals in their order", parse::refusals),
    ("help: the original's own trees", help::original_trees),
    ("help: random trees", help::random_trees),
    ("help: named trees", help::named_trees),
    ("help: every character", help::every_one),
    ("help: refusals in their order", help::refusals),
    ("run: what the standard states", run::stated),
    ("run: white space", run::white_space),
    ("run: every character", run::every_one),
    ("run: escaped words", run::escapes),
    ("run: the original's own trees", run::original_trees),
    ("run: named trees", run::named_trees),
    ("run: random trees", run::random_trees),
    ("run: texts of help", run::help_texts),
    ("run: long lines", run::long_lines),
    ("run: mixed lines", run::mixed_lines),
    ("run: refusals in their order", run::refusals),
    ("console: what the standard shows", console::standard),
    ("console: named sessions", console::named_sessions),
    ("console: named trees", console::named_trees),
    ("console: bad lines at each place", console::bad_lines),
    ("console: trees about the limits", console::tree_limits),
    ("console: damaged trees", console::damaged_trees),
    ("console: lines about the limits", console::line_limits),
    ("console: inputs in pieces", console::pieces),
    ("console: line by line", console::dialogues),
    ("console: outputs that are closed", console::closed_outputs),
    ("console: mixed sessions", console::mixed_sessions),
    ("console: keys of ECMA-48", console::ecma48),
    ("console: words that are refused", console::refused_words),
];

/// Runs the parts whose names begin with one of the words given, all if there are none.
fn main() -> ExitCode {
    let words: Vec<String> = std::env::args().skip(1).collect();
    let wanted = |name: &str| words.is_empty() || words.iter().any(|word| name.starts_with(word));
    let parts: Vec<_> = PARTS.into_iter().filter(|(name, _)| wanted(name)).collect();
    println!("{}", part::HEADING);
    if let Some(first) = workers::run(&parts) {
        println!("\nThe first difference\n{first}");
        return ExitCode::FAILURE;
    }
    println!("no difference");
    ExitCode::SUCCESS
}
