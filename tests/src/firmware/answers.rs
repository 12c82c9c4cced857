//! The library's answer to a call, in 01's words.

use super::{
    ceiling, clock_lost, command, due, fixed_failed, free_blocks, take_file, take_response, tick,
    update_failed,
};
use super::{CeilingAnswer, DueAnswer, Number, Unit, FIXED, NOTHING, UPDATE};
use crate::call::{Answer, Call, Due};

/// A cause as a refusal's number; of a number that is none, the answer's text.
fn refused(cause: u32, answer: impl std::fmt::Debug) -> Result<Answer, String> {
    match u8::try_from(cause) {
        Ok(cause @ 1..=17) => Ok(Answer::Refused(cause)),
        _ => Err(format!("no answer of 01: {answer:?}")),
    }
}

fn number(answer: Number) -> Result<Answer, String> {
    match answer {
        Number { cause: 0, value } => Ok(Answer::Number(value)),
        Number { cause, value: 0 } => refused(cause, answer),
        _ => Err(format!("refused with a value: {answer:?}")),
    }
}

fn what_is_due(answer: DueAnswer) -> Result<Answer, String> {
    match (answer.cause, answer.kind, answer.flag) {
        (0, NOTHING, 0) => Ok(Answer::Due(Due::Nothing)),
        (0, UPDATE, 0) => Ok(Answer::Due(Due::Update)),
        (0, FIXED, flag @ 0..=9) => Ok(Answer::Due(Due::Fixed(flag as u8))),
        (cause, NOTHING, 0) => refused(cause, answer),
        _ => Err(format!("no answer of 01: {answer:?}")),
    }
}

fn ceiling_of(answer: CeilingAnswer) -> Result<Answer, String> {
    let CeilingAnswer { rate, percent, .. } = answer;
    match (answer.cause, answer.has_rate) {
        (0, 0) if (rate, percent) == (0, 0) => Ok(Answer::Ceiling(None)),
        (0, 1) if rate <= 100 => Ok(Answer::Ceiling(Some((rate as u8, percent)))),
        (cause, 0) if (rate, percent) == (0, 0) => refused(cause, answer),
        _ => Err(format!("no answer of 01: {answer:?}")),
    }
}

/// Makes the call; the unit that comes back takes the place of the old one.
pub fn answer(unit: &mut Unit, store: &mut [u8], call: &Call) -> Result<Answer, String> {
    let done = match call {
        Call::Tick { second } => tick(*unit, *second, store),
        Call::ClockLost => clock_lost(*unit),
        Call::TakeFile { name, body } => take_file(*unit, name, body, store),
        Call::TakeResponse { boundary, response } => {
            take_response(*unit, boundary, response, store)
        }
        Call::UpdateFailed { status } => update_failed(*unit, *status),
        Call::FixedFailed { status } => fixed_failed(*unit, *status),
        Call::Due => return what_is_due(due(*unit)),
        Call::Ceiling { slot } => return ceiling_of(ceiling(*unit, *slot, store)),
        Call::Command => return number(command(*unit)),
        Call::FreeBlocks => return number(free_blocks(*unit)),
    };
    *unit = done.unit;
    match done.cause {
        0 => Ok(Answer::Accepted),
        cause => refused(cause, done),
    }
}
