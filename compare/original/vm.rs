// Stands for the file vm.rs that the original wants and whose text was not supplied: it hands out the parser's inside.
mod handlers;
mod planted;
mod tree;

use super::{CommandHistory, CommandNode, CommandParser, ParseError, ParsedCommand};
use super::{execute_command, handle_builtin_commands, print_prompt, run_cmd_bytes, show_help};
use crate::Original;
use std::collections::BTreeMap;
use std::string::String;
use std::vec::Vec;

/// Adds no command: the vm commands are not among the four files. It is the last to build the tree, so a tree that was planted
/// takes the place of all that is there.
pub fn build_vm_cmd(tree: &mut BTreeMap<String, CommandNode>) {
    if let Some(planted) = planted::take() {
        *tree = planted;
    }
}

impl Original {
    pub fn tokenize(line: &str) -> Vec<String> {
        CommandParser::tokenize(line)
    }

    /// A line parsed, or the fault's number in the standard and its text.
    pub fn parse(line: &str) -> Result<ParsedCommand, (u64, String)> {
        CommandParser::parse(line).map_err(numbered)
    }

    /// A line carried out, or the fault's number in the standard and its text.
    pub fn execute(line: &str) -> Result<(), (u64, String)> {
        execute_command(line).map_err(numbered)
    }

    /// Shows the help for words, of which there has to be one, or gives back the word that is unknown.
    pub fn show_help(words: &[String]) -> Result<(), String> {
        show_help(words).map_err(|error| match error {
            ParseError::UnknownCommand(word) => word,
            _ => panic!("a help has no other fault"),
        })
    }

    /// A history as the loop makes it.
    pub fn history() -> CommandHistory {
        CommandHistory::new(100)
    }

    /// The same with these entries, from the oldest to the newest.
    pub fn history_of(entries: &[Vec<u8>]) -> CommandHistory {
        let mut history = Original::history();
        for entry in entries {
            history.add_command(String::from_utf8_lossy(entry).into_owned());
        }
        history
    }

    /// What the loop does with a line behind the LF of Enter, up to the prompt.
    pub fn run_line(line: &[u8]) {
        if !line.is_empty() && !handle_builtin_commands(str::from_utf8(line).unwrap_or("")) {
            run_cmd_bytes(line);
        }
    }

    /// What the loop does with a line behind the LF of Enter.
    pub fn run(line: &[u8]) {
        Original::run_line(line);
        print_prompt();
    }
}

fn numbered(error: ParseError) -> (u64, String) {
    match error {
        ParseError::UnknownCommand(text) => (4, text),
        ParseError::UnknownOption(text) => (5, text),
        ParseError::MissingValue(text) => (6, text),
        ParseError::MissingRequiredOption(text) => (7, text),
        ParseError::NoHandler(text) => (8, text),
    }
}
