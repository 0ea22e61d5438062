// The help of a command and the list of commands, against what the original takes to show the same under the same tree.
use crate::parse::large_tree;
use crate::table::help_row;
use crate::timing::parted;
use axstd::console::typed;
use forest::image;
use original::Original;
use original_fs::Original as OriginalFs;
use std::hint::black_box;

/// More than any of these texts takes.
const ROOM: usize = 65_536;

pub fn rows() {
    for (name, tree, command) in [("fs", OriginalFs::tree(), "rm"), ("256 nodes", large_tree(), "n15 n14")] {
        Original::plant(&tree);
        let image = image(&tree);
        let words: Vec<String> = command.split(' ').map(str::to_string).collect();
        row(name, "of a command", &image, command.as_bytes(), || Original::show_help(black_box(&words)).expect("a command"), calls::help);
        row(name, "bare", &image, b"help", || Original::run_line(black_box(b"help")), calls::run);
    }
}

/// What is timed must be the same on both sides: the text that is shown.
fn row(tree: &str, help: &str, image: &[u8], line: &[u8], show: impl Fn(), call: impl Fn(&[u8], &[u8], &mut [u8]) -> u64) {
    let mut out = vec![0; ROOM];
    let screen = typed(&[], &show).screens.remove(0);
    let shown = call(image, line, &mut out) as u32 as usize;
    assert_eq!(out[..shown], screen[..], "{tree} {help}");
    let rust = || _ = black_box(typed(&[], &show));
    let help_of = |image: &[u8], line: &[u8], out: &mut [u8]| _ = black_box(call(black_box(image), black_box(line), black_box(out)));
    let times = parted(image, line, ROOM, rust, help_of);
    help_row(tree, help, shown, &times);
}
