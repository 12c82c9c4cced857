//! Calls with a spoilt unit or store: refused with 4, or 3 by the length, and
//! unit and store stay as they were; what is still sound is answered as the
//! machine answers that it stands for.

use super::counts::Counts;
use super::pair::{agree, blocks_agree, check_request, same, writes_agree, Pair};
use crate::call::{Answer, Call};
use crate::firmware::{self, Unit, STORE_LENGTH};
use crate::generate::frame::{Frame, BOUNDARY};
use crate::generate::outputs::Install;
use crate::generate::spoil::{all_spoils, Outcome, Spoil};
use crate::generate::Random;
use crate::lent::Lent;
use crate::reference::plant;
use crate::reference::soundness::{machine_of, verdict};

/// One call with something spoilt; the pair stays as it is.
pub fn call(
    pair: &Pair,
    call: &Call,
    random: &mut Random,
    counts: &mut Counts,
) -> Result<(), String> {
    let spoils: Vec<&Spoil> = all_spoils().collect();
    let spoil = random.pick(&spoils);
    let mut unit = pair.unit;
    let mut store = pair.store.held().to_vec();
    if !(spoil.apply)(&mut unit, &mut store, random) {
        return Ok(());
    }
    let told = |difference: String| format!("{}, {}: {difference}", spoil.words, call.line());
    counts.spoils.add(spoil.words);
    if pair.store.held().len() == STORE_LENGTH {
        check_outcome(spoil.outcome, &unit, &store).map_err(told)?;
    }
    let answer = one_call(unit, &store, pair.store.held(), call).map_err(told)?;
    counts.spoilt_call(call.title(), answer);
    let cause = verdict(&unit, Some(&store)).err().map_or(0, u32::from);
    same("check", firmware::check(unit, &store), cause).map_err(told)?;
    check_request(&unit, random).map_err(told)
}

/// The reference of soundness must see what the spoiling was meant to do.
fn check_outcome(outcome: Outcome, unit: &Unit, store: &[u8]) -> Result<(), String> {
    let sound = (
        verdict(unit, None).is_ok(),
        verdict(unit, Some(store)).is_ok(),
    );
    match outcome {
        Outcome::Unit => same("reference of soundness", sound, (false, false)),
        Outcome::Store => same("reference of soundness", sound, (true, false)),
        Outcome::Sound => same("reference of soundness", sound, (true, true)),
        Outcome::Chance => Ok(()),
    }
}

/// The call on these; `whole` is the store before it was spoilt.
fn one_call(unit: Unit, store: &[u8], whole: &[u8], call: &Call) -> Result<Answer, String> {
    let mut after = unit;
    let mut lent = Lent::with(store);
    let answer = firmware::answers::answer(&mut after, lent.room(), call)?;
    same("bytes around the store", lent.margins_stayed(), true)?;
    let judged = call.is_lent_the_store().then_some(store);
    if let Err(cause) = verdict(&unit, judged) {
        same("answer", answer, Answer::Refused(cause))?;
        same("unit", after, unit)?;
        same("store unchanged", lent.held() == store, true)?;
        return Ok(answer);
    }
    // Where the store isn't lent, its rates don't matter to the machine.
    let mut machine = match store.len() {
        STORE_LENGTH => machine_of(&unit, store),
        _ if whole.len() == STORE_LENGTH => machine_of(&unit, whole),
        _ => machine_of(&unit, &vec![255; STORE_LENGTH]),
    };
    same("answer", answer, machine.answer(call))?;
    if answer != Answer::Accepted {
        same("unit", after, unit)?;
    }
    writes_agree(&after, &machine, call, answer, [store, lent.held()])?;
    if judged.is_some() {
        blocks_agree(&after, lent.held(), &machine)?;
    }
    agree(&after, &machine)?;
    Ok(answer)
}

/// Installing with any values. A refusal gives a unit 'of which every call is
/// refused with 3 or 4'.
pub fn install(install: &Install, counts: &mut Counts) -> Result<(), String> {
    let done = firmware::install(&install.id, &install.mac, install.settings);
    let expected = plant::install(&install.id, &install.mac, install.settings);
    let cause = expected.err().unwrap_or(0);
    same("installing", done.cause, u32::from(cause))?;
    *counts.installs.entry(cause).or_insert(0) += 1;
    if cause == 0 {
        return Ok(());
    }
    same("soundness of no unit", verdict(&done.unit, None), Err(4))?;
    let store = vec![255; STORE_LENGTH];
    let (name, body) = crate::generate::cases::example_10();
    let response = Frame::figure(BOUNDARY, &name, &body).bytes();
    let calls = [
        Call::Tick { second: 0 },
        Call::ClockLost,
        Call::TakeFile { name, body },
        Call::TakeResponse {
            boundary: BOUNDARY.to_vec(),
            response,
        },
        Call::UpdateFailed { status: 0 },
        Call::FixedFailed { status: 404 },
        Call::Due,
        Call::Ceiling { slot: 0 },
        Call::Command,
        Call::FreeBlocks,
    ];
    for call in &calls {
        let told = |difference: String| format!("no unit, {}: {difference}", call.line());
        one_call(done.unit, &store, &store, call).map_err(told)?;
        one_call(done.unit, &store[1..], &store, call).map_err(told)?;
    }
    same("check of no unit", firmware::check(done.unit, &store), 4)
}
