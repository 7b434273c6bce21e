//! Runs of a script whose reader or writer answers Interrupted without an end: with how many turns they end.

use crate::devices::{InterruptedForGood, OneByte};
use crate::texts::{INVERTER, TWO_INVERTERS};
use cell_library::lef_texts::LefTexts;
use counted_devices::counted::{Counted, Failures};
use edit_script::run::{MAX_TURNS, RunFault, Tally, run};
use std::alloc::{AllocError, Global};
use std::hash::RandomState;
use std::io::{Read, Write};
use std::test::Fail;

/// What a run gives with devices that may have no end: its result, the failures of each device, of which none is hard, and what
/// each writer got.
#[derive(Drop)]
struct Ended {
    result: Result<Tally, RunFault>,
    failures: [u64; 3],
    hard: u64,
    answers: Vec<u8>,
    text: Vec<u8>,
}

/// A writer to memory that is interrupted for good after so many turns.
fn writer(alloc: Global, before: u64) -> Counted<InterruptedForGood<Vec<u8>>> {
    Counted::new(InterruptedForGood::new(Vec::new(alloc), before))
}

/// Runs a script that a device gives over the two inverters. Its writers have so many turns before they are interrupted.
fn ended_with<R: Read + Drop>(
    alloc: Global,
    hash_builder: RandomState,
    script: R,
    before: [u64; 2],
) -> Result<Ended, AllocError> {
    let mut lefs = LefTexts::new(alloc);
    lefs.push(INVERTER)?;
    let mut script = Counted::new(script);
    let mut out = writer(alloc, before[0]);
    let mut text = writer(alloc, before[1]);
    let result = run(
        alloc,
        hash_builder,
        &lefs,
        TWO_INVERTERS,
        &mut script,
        &mut out,
        &mut text,
    );
    Ok(Ended {
        result,
        failures: [script.failures(), out.failures(), text.failures()],
        hard: script.hard_failures() + out.hard_failures() + text.hard_failures(),
        answers: out.into_inner().inner,
        text: text.into_inner().inner,
    })
}

/// More turns than any run takes.
const NO_END: u64 = 18446744073709551615;

/// How many calls of `read` a script may take.
const TURNS: u64 = 33554432;

#[test]
fn a_reader_that_always_answers_interrupted(rt: HostRuntime) -> Result<(), Fail> {
    assert_eq!(rt; MAX_TURNS as u64, TURNS);
    let script = InterruptedForGood::new(b"check\n".as_slice(), 0);
    let got = ended_with(rt.alloc(), RandomState::new(&rt)?, script, [NO_END, NO_END])?;
    assert_eq!(rt; got.result, Err(RunFault::Endless));
    assert_eq!(rt; got.failures, [TURNS, 0, 0]);
    assert!(rt; got.hard == 0 && got.answers.is_empty() && got.text.is_empty());
    Ok(())
}

#[test]
fn a_reader_that_gives_one_byte_and_is_then_interrupted_for_good(rt: HostRuntime) -> Result<(), Fail> {
    let script = InterruptedForGood::new(OneByte(b"check\n".as_slice()), 1);
    let got = ended_with(rt.alloc(), RandomState::new(&rt)?, script, [NO_END, NO_END])?;
    assert_eq!(rt; got.result, Err(RunFault::Endless));
    assert_eq!(rt; got.failures, [TURNS - 1, 0, 0]);
    assert!(rt; got.hard == 0 && got.answers.is_empty() && got.text.is_empty());
    Ok(())
}

#[test]
fn a_writer_of_answers_that_is_interrupted_for_good(rt: HostRuntime) -> Result<(), Fail> {
    let script = b"undo\nundo\n".as_slice();
    let got = ended_with(rt.alloc(), RandomState::new(&rt)?, script, [1, NO_END])?;
    assert_eq!(rt; got.result, Err(RunFault::Write));
    assert_eq!(rt; got.failures, [0, TURNS, 0]);
    assert_eq!(rt; got.answers.as_slice(), b"bad 1\n".as_slice());
    assert!(rt; got.hard == 0 && got.text.is_empty());
    Ok(())
}

#[test]
fn a_writer_of_the_text_that_is_interrupted_for_good(rt: HostRuntime) -> Result<(), Fail> {
    let script = b"undo\n".as_slice();
    let got = ended_with(rt.alloc(), RandomState::new(&rt)?, script, [NO_END, 0])?;
    assert_eq!(rt; got.result, Err(RunFault::Write));
    assert_eq!(rt; got.failures, [0, 0, TURNS]);
    assert_eq!(rt; got.answers.as_slice(), b"bad 1\n".as_slice());
    assert!(rt; got.hard == 0 && got.text.is_empty());
    Ok(())
}
