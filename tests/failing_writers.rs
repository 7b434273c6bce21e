//! A run of an edit and a check whose writers fail at each write: what both got, one after the other, is a first part of the whole
//! output.

use crate::devices::{Fails, OneByte, Turns};
use crate::texts::{ON_A_NET, WHOLE_LIBRARY};
use cell_library::lef_texts::LefTexts;
use counted_devices::counted::Counted;
use edit_script::run::{RunFault, Tally, run};
use std::alloc::{AllocError, Global};
use std::hash::RandomState;
use std::io::Write;
use std::test::Fail;

/// A route onto the supply, and a check.
const SCRIPT: &[u8] = b"route n1 + ROUTED met1 ( 700 1100 ) ( * 2480 )\ncheck\n";

const ANSWERS: &[u8] = b"ok 1\nopen n1 2\nshort VDD n1 met1 630 2480 770 2550\ndiagnostics 2\n";

const COUNTS: Tally = Tally {
    accepted: 1,
    refused: 0,
    bad: 0,
};

/// Runs the script, with answers and text to devices.
fn write_by<W: Write + Drop, V: Write + Drop>(
    alloc: Global,
    hash_builder: RandomState,
    out: W,
    text: V,
) -> Result<(Result<Tally, RunFault>, W, V), AllocError> {
    let mut lefs = LefTexts::new(alloc);
    lefs.push(WHOLE_LIBRARY)?;
    let mut script = Counted::new(SCRIPT);
    let mut out = Counted::new(out);
    let mut text = Counted::new(text);
    let result = run(
        alloc,
        hash_builder,
        &lefs,
        ON_A_NET,
        &mut script,
        &mut out,
        &mut text,
    );
    Ok((result, out.into_inner(), text.into_inner()))
}

/// What the run gives where no writer fails: how many writes each takes, and the whole output.
#[derive(Drop)]
struct Whole {
    answering: usize,
    writing: usize,
    output: Vec<u8>,
}

fn whole(alloc: Global, hash_builder: RandomState) -> Result<Whole, Fail> {
    let out = Turns::new(Vec::new(alloc));
    let text = Turns::new(Vec::new(alloc));
    let (result, out, text) = write_by(alloc, hash_builder, out, text)?;
    if result != Ok(COUNTS) || out.inner.as_slice() != ANSWERS {
        return Err(Fail::from("the run gives something else"));
    }
    Ok(Whole {
        answering: out.count,
        writing: text.count,
        output: joined(alloc, &out.inner, &text.inner)?,
    })
}

/// What both writers got, one after the other.
fn joined(alloc: Global, out: &[u8], text: &[u8]) -> Result<Vec<u8>, AllocError> {
    let mut all = Vec::from_slice(alloc, out)?;
    all.extend_from_slice(text)?;
    Ok(all)
}

/// The turns of two writers of which the one at this turn of both together fails: the answers are all written before the text.
fn turns_of(turn: usize, answering: usize) -> (usize, usize) {
    if turn < answering {
        (turn, 0)
    } else {
        (turn, turn - answering)
    }
}

#[test]
fn each_write_fails(rt: HostRuntime) -> Result<(), Fail> {
    let alloc = rt.alloc();
    let hash_builder = RandomState::new(&rt)?;
    let whole = whole(alloc, hash_builder)?;
    let turns = whole.answering + whole.writing;
    // (an answer is a write, and so is each piece of the text)
    assert!(rt; whole.answering == 2 && whole.writing > 1);
    let mut before = 0;
    for turn in 0..turns {
        let (of_out, of_text) = turns_of(turn, whole.answering);
        let out = Fails::new(Vec::new(alloc), of_out);
        let text = Fails::new(Vec::new(alloc), of_text);
        let (result, out, text) = write_by(alloc, hash_builder, out, text)?;
        assert_eq!(rt; result, Err(RunFault::Write), "turn {turn}");
        let got = joined(alloc, &out.inner, &text.inner)?;
        assert_eq!(rt; Some(got.as_slice()), whole.output.get(..got.len()), "turn {turn}");
        assert!(rt; got.len() >= before && got.len() < whole.output.len(), "turn {turn}");
        before = got.len();
    }
    Ok(())
}

#[test]
fn each_write_of_a_byte_fails(rt: HostRuntime) -> Result<(), Fail> {
    let alloc = rt.alloc();
    let hash_builder = RandomState::new(&rt)?;
    let whole = whole(alloc, hash_builder)?;
    for turn in 0..whole.output.len() {
        let (of_out, of_text) = turns_of(turn, ANSWERS.len());
        let out = Fails::new(OneByte(Vec::new(alloc)), of_out);
        let text = Fails::new(OneByte(Vec::new(alloc)), of_text);
        let (result, out, text) = write_by(alloc, hash_builder, out, text)?;
        assert_eq!(rt; result, Err(RunFault::Write), "turn {turn}");
        let got = joined(alloc, &out.inner.0, &text.inner.0)?;
        assert_eq!(rt; Some(got.as_slice()), whole.output.get(..turn), "turn {turn}");
    }
    Ok(())
}
