//! Runs of a script whose reader or writers do less than they may, or fail.

use crate::devices::{Fails, Interrupted, OneByte, TakesNone};
use crate::texts::{INVERTER, TWO_INVERTERS};
use cell_library::lef_texts::LefTexts;
use counted_devices::counted::Counted;
use edit_script::run::{RunFault, Tally, run};
use std::alloc::{AllocError, Global};
use std::hash::RandomState;
use std::io;
use std::io::{Read, Write};
use std::test::Fail;

/// What a run gives: its result, its answers, and the text in the end.
#[derive(Drop)]
struct Outputs {
    result: Result<Tally, RunFault>,
    answers: Vec<u8>,
    text: Vec<u8>,
}

/// How long a script may be, in bytes.
const MOST: u64 = 16777216;

const SCRIPT: &[u8] = b"place u1 0 0 N\nundo\nplace u3 0 0 N\ncheck\n";

const ANSWERS: &[u8] = b"ok 1\nbad 2\nrefused 3 E1\ndiagnostics 0\n";

const COUNTS: Tally = Tally {
    accepted: 1,
    refused: 1,
    bad: 1,
};

/// The inverter's library.
fn library(alloc: Global) -> Result<LefTexts, AllocError> {
    let mut lefs = LefTexts::new(alloc);
    lefs.push(INVERTER)?;
    Ok(lefs)
}

/// Runs a script that a device gives over the two inverters.
fn read_by<R: Read + Drop>(
    alloc: Global,
    hash_builder: RandomState,
    script: R,
) -> Result<Outputs, AllocError> {
    let lefs = library(alloc)?;
    let mut script = Counted::new(script);
    let mut out = Counted::new(Vec::new(alloc));
    let mut text = Counted::new(Vec::new(alloc));
    let result = run(
        alloc,
        hash_builder,
        &lefs,
        TWO_INVERTERS,
        &mut script,
        &mut out,
        &mut text,
    );
    Ok(Outputs {
        result,
        answers: out.into_inner(),
        text: text.into_inner(),
    })
}

#[test]
fn readers_of_one_byte_and_interruptions(rt: HostRuntime) -> Result<(), Fail> {
    let alloc = rt.alloc();
    let hash_builder = RandomState::new(&rt)?;
    for got in [
        read_by(alloc, hash_builder, SCRIPT)?,
        read_by(alloc, hash_builder, OneByte(SCRIPT))?,
        read_by(alloc, hash_builder, Interrupted::new(SCRIPT))?,
        read_by(alloc, hash_builder, Interrupted::new(OneByte(SCRIPT)))?,
    ] {
        assert_eq!(rt; got.result, Ok(COUNTS));
        assert_eq!(rt; got.answers.as_slice(), ANSWERS);
        assert_eq!(rt; got.text.len(), 271);
    }
    Ok(())
}

#[test]
fn a_reader_that_fails_at_each_turn(rt: HostRuntime) -> Result<(), Fail> {
    let hash_builder = RandomState::new(&rt)?;
    for turn in 0..=SCRIPT.len() {
        let got = read_by(rt.alloc(), hash_builder, Fails::new(OneByte(SCRIPT), turn))?;
        assert_eq!(rt; got.result, Err(RunFault::Read), "turn {turn}");
        assert!(rt;
            got.answers.is_empty() && got.text.is_empty(),
            "turn {turn}"
        );
    }
    let got = read_by(rt.alloc(), hash_builder, Fails::new(OneByte(SCRIPT), SCRIPT.len() + 1))?;
    assert_eq!(rt; got.result, Ok(COUNTS));
    Ok(())
}

#[test]
fn a_script_of_most_bytes_and_one_more(rt: HostRuntime) -> Result<(), Fail> {
    let hash_builder = RandomState::new(&rt)?;
    let got = read_by(rt.alloc(), hash_builder, io::repeat(b'#').take(MOST))?;
    let none = Tally {
        accepted: 0,
        refused: 0,
        bad: 0,
    };
    assert_eq!(rt; got.result, Ok(none));
    assert!(rt; got.answers.is_empty());
    assert_eq!(rt; got.text.as_slice(), TWO_INVERTERS);
    let got = read_by(rt.alloc(), hash_builder, OneByte(io::repeat(b'#').take(100000)))?;
    assert_eq!(rt; got.result, Ok(none));
    let got = read_by(rt.alloc(), hash_builder, io::repeat(b'#').take(MOST + 1))?;
    assert_eq!(rt; got.result, Err(RunFault::TooLong));
    assert!(rt; got.answers.is_empty() && got.text.is_empty());
    Ok(())
}

/// Runs the script over the two inverters, with answers and text to devices.
fn write_by<W: Write + Drop, V: Write + Drop>(
    alloc: Global,
    hash_builder: RandomState,
    out: W,
    text: V,
) -> Result<(Result<Tally, RunFault>, W, V), AllocError> {
    let lefs = library(alloc)?;
    let mut script = Counted::new(SCRIPT);
    let mut out = Counted::new(out);
    let mut text = Counted::new(text);
    let result = run(
        alloc,
        hash_builder,
        &lefs,
        TWO_INVERTERS,
        &mut script,
        &mut out,
        &mut text,
    );
    Ok((result, out.into_inner(), text.into_inner()))
}

#[test]
fn writers_of_one_byte_and_interruptions(rt: HostRuntime) -> Result<(), Fail> {
    let alloc = rt.alloc();
    let hash_builder = RandomState::new(&rt)?;
    let (result, plain, text) = write_by(alloc, hash_builder, Vec::new(alloc), Vec::new(alloc))?;
    assert_eq!(rt; result, Ok(COUNTS));
    assert_eq!(rt; plain.as_slice(), ANSWERS);
    let (result, OneByte(slow), OneByte(slow_text)) = write_by(
        alloc,
        hash_builder,
        OneByte(Vec::new(alloc)),
        OneByte(Vec::new(alloc)),
    )?;
    assert_eq!(rt; result, Ok(COUNTS));
    assert_eq!(rt; slow.as_slice(), ANSWERS);
    assert_eq!(rt; slow_text.as_slice(), text.as_slice());
    let out = Interrupted::new(OneByte(Vec::new(alloc)));
    let def_out = Interrupted::new(OneByte(Vec::new(alloc)));
    let (result, out, def_out) = write_by(alloc, hash_builder, out, def_out)?;
    assert_eq!(rt; result, Ok(COUNTS));
    assert_eq!(rt; out.inner.0.as_slice(), ANSWERS);
    assert_eq!(rt; def_out.inner.0.as_slice(), text.as_slice());
    Ok(())
}

#[test]
fn writers_that_take_nothing(rt: HostRuntime) -> Result<(), Fail> {
    let alloc = rt.alloc();
    let hash_builder = RandomState::new(&rt)?;
    let (result, _, text) = write_by(alloc, hash_builder, TakesNone, Vec::new(alloc))?;
    assert_eq!(rt; result, Err(RunFault::Write));
    assert!(rt; text.is_empty());
    let (result, out, _) = write_by(alloc, hash_builder, Vec::new(alloc), TakesNone)?;
    assert_eq!(rt; result, Err(RunFault::Write));
    assert_eq!(rt; out.as_slice(), ANSWERS);
    Ok(())
}

/// A writer to memory of one byte a turn, that fails once, after this many.
fn failing(alloc: Global, turns: usize) -> Fails<OneByte<Vec<u8>>> {
    Fails::new(OneByte(Vec::new(alloc)), turns)
}

#[test]
fn a_writer_of_answers_that_fails_at_each_turn(rt: HostRuntime) -> Result<(), Fail> {
    let alloc = rt.alloc();
    let hash_builder = RandomState::new(&rt)?;
    for turn in 0..ANSWERS.len() {
        let (result, out, text) = write_by(alloc, hash_builder, failing(alloc, turn), Vec::new(alloc))?;
        assert_eq!(rt; result, Err(RunFault::Write), "turn {turn}");
        assert_eq!(rt;
            Some(out.inner.0.as_slice()),
            ANSWERS.get(..turn),
            "turn {turn}"
        );
        assert!(rt; text.is_empty(), "turn {turn}");
    }
    let (result, _, _) = write_by(alloc, hash_builder, failing(alloc, ANSWERS.len()), Vec::new(alloc))?;
    assert_eq!(rt; result, Ok(COUNTS));
    Ok(())
}

#[test]
fn a_writer_of_the_text_that_fails_at_each_turn(rt: HostRuntime) -> Result<(), Fail> {
    let alloc = rt.alloc();
    let hash_builder = RandomState::new(&rt)?;
    let (_, _, whole) = write_by(alloc, hash_builder, Vec::new(alloc), Vec::new(alloc))?;
    for turn in 0..whole.len() {
        let (result, out, text) = write_by(alloc, hash_builder, Vec::new(alloc), failing(alloc, turn))?;
        assert_eq!(rt; result, Err(RunFault::Write), "turn {turn}");
        assert_eq!(rt; out.as_slice(), ANSWERS, "turn {turn}");
        assert_eq!(rt;
            Some(text.inner.0.as_slice()),
            whole.get(..turn),
            "turn {turn}"
        );
    }
    let (result, _, _) = write_by(alloc, hash_builder, Vec::new(alloc), failing(alloc, whole.len()))?;
    assert_eq!(rt; result, Ok(COUNTS));
    Ok(())
}
