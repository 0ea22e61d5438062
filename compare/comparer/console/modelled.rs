// A session whose keys are taken by the model, as a key profile has them, and whose lines are run by the original.
use super::house;
use super::told::{Lines, PROMPT, Told, shown};
use crate::model::{Model, Profile};
use crate::ran::{EXIT, HANDLER, Ran, ran};
use original::Original;

/// What a session has to print whose keys are read as this profile says.
pub fn told_with(profile: Profile, input: &[u8]) -> Told {
    let read = Lines::of(input);
    Original::plant(&read.tree);
    let mut model = Model::fresh_with(profile);
    let (mut output, mut left) = (String::new(), false);
    for &key in &read.keys {
        let effect = model.press(PROMPT, key);
        output += &shown(&effect.screen);
        let Some(line) = effect.entered else { continue };
        let ran = ran(&line);
        left = ran.kind == EXIT;
        output += &frames(&ran);
        if left {
            break;
        }
        output += &shown(PROMPT);
    }
    read.told(input, output, left)
}

/// What is printed for a line that is run.
fn frames(ran: &Ran) -> String {
    match ran.kind {
        HANDLER => house(&[&[0x21], &(ran.second as u16).to_be_bytes()[..], &ran.bytes].concat()),
        EXIT => shown(&ran.bytes) + &house(&[0x23]),
        _ => shown(&ran.bytes),
    }
}
