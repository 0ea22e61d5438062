// The original under keys: it must write the screens of the session that the standard shows, with and without `fs`.
use crate::part::Part;
use axstd::console::typed;

/// The session of the standard, and an exit.
const KEYS: &[u8] = b"log\rexit\r";

const WELCOME: &str = "Welcome to AxVisor Shell!\nType 'help' to see available commands\n\
    Use UP/DOWN arrows to navigate command history\n";
const NOTE: &str = "Note: Running with limited features (filesystem support disabled).\n";

pub fn compare(part: &mut Part) {
    one(part, original::Original::console_init, &format!("{WELCOME}{NOTE}"), "axvisor:$ ");
    one(part, original_fs::Original::console_init, WELCOME, "axvisor:/$ ");
}

fn one(part: &mut Part, console_init: fn(), welcome: &str, prompt: &str) {
    let redraw = |line: &str| format!("\r\x1b[2K{prompt}{line}");
    let stated = [
        format!("{welcome}\n{prompt}"),
        redraw("l"),
        redraw("lo"),
        redraw("log"),
        format!("\nCurrent log level: Off\n{prompt}"),
        redraw("e"),
        redraw("ex"),
        redraw("exi"),
        redraw("exit"),
        "\nGoodbye!\n".to_string(),
    ];
    let session = typed(KEYS, console_init);
    part.input(KEYS);
    part.same(&stated, &session.screens);
    part.same(&["Exit(0)"], &[format!("{:?}", session.end)]);
}
