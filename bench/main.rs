// Times the proved library against the original shell, both from this one driver, and prints twelve tables, or ten
// where the program `console` runs under an emulator.
mod forget;
mod help;
mod keys;
mod lines;
mod parse;
mod session;
mod table;
mod timing;
mod tree;
mod words;

fn main() {
    table::heading();
    words::rows();
    table::key_heading();
    keys::rows();
    table::greek_heading();
    keys::greek_rows();
    table::begun_heading();
    keys::begun_rows();
    table::add_heading();
    keys::add_rows();
    table::forget_heading();
    forget::rows();
    table::profile_heading();
    keys::profile_rows();
    table::tree_heading();
    tree::rows();
    table::parse_heading();
    parse::rows();
    table::help_heading();
    help::rows();
    if std::env::var_os("RISSEMAT_EMULATED").is_some() {
        println!("\nThe program console runs under an emulator here, so that a session is not timed.");
        return;
    }
    table::session_heading();
    session::key_rows();
    table::tree_lines_heading();
    session::tree_rows();
}
