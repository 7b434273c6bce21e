//! Edits, and runs of scripts, in heaps of each size: a growth that is refused leaves the text.

use crate::texts::TWO_INVERTERS;
use cell_library::lef_texts::LefTexts;
use cell_library::library::Library;
use counted_devices::counted::Counted;
use edit_model::edit::{Done, Edit, EditRefusal};
use design_model::geometry::Orient;
use edit_script::run::{RunFault, Tally, run};
use edit_session::session::Session;
use linked_list_allocator::LocalHeap;
use std::alloc::{AllocError, Global};
use std::hash::RandomState;
use std::test::Fail;

/// How long the comment is before the first component: so long that an edit of it needs more than is left of opening the text.
const COMMENT: usize = 2000;

/// Where the first component begins.
const FIRST: usize = 183;

/// The two inverters, the first behind a comment.
fn commented(alloc: Global) -> Result<Vec<u8>, AllocError> {
    let mut text = Vec::from_slice(alloc, &TWO_INVERTERS[..FIRST])?;
    text.push(b'#')?;
    for _ in 2..COMMENT {
        text.push(b'x')?;
    }
    text.push(b'\n')?;
    text.extend_from_slice(&TWO_INVERTERS[FIRST..])?;
    Ok(text)
}

/// What a session in a heap of this many bytes answers to an edit of the text or of the design, and its text then; none
/// where the heap is too small to open it.
fn edited_in(
    alloc: Global,
    hash_builder: RandomState,
    lefs: &LefTexts,
    design: &[u8],
    size: usize,
    of_text: bool,
) -> Result<Option<(Result<Done, EditRefusal>, Vec<u8>)>, Fail> {
    let heap = LocalHeap::new(alloc, size)?;
    let Ok(library) = Library::read(&heap, hash_builder, lefs) else {
        return Ok(None);
    };
    let Ok(mut session) = Session::open(&heap, &library, design) else {
        return Ok(None);
    };
    let reply = if of_text {
        session.text_edit(
            COMMENT + 185,
            COMMENT + 187,
            b"a_much_longer_name".as_slice(),
        )
    } else {
        session.edit(&Edit::Place {
            component: b"u1",
            x: 460,
            y: 0,
            orient: Orient::N,
        })
    };
    let mut out = Counted::new(Vec::new(alloc));
    if session.write_to(&mut out).is_err() {
        return Err(Fail::from("the text was not written"));
    }
    Ok(Some((reply, out.into_inner())))
}

#[test]
fn each_growth_refused_leaves_the_text(rt: HostRuntime) -> Result<(), Fail> {
    // A library of no text leaves no room behind that it needed while it was read.
    let lefs = LefTexts::new(rt.alloc());
    let design = commented(rt.alloc())?;
    let hash_builder = RandomState::new(&rt)?;
    for of_text in [false, true] {
        let mut refused = false;
        let mut accepted = false;
        for size in 0..1280usize {
            match edited_in(rt.alloc(), hash_builder, &lefs, &design, 16 * size, of_text)? {
                Some((Ok(_), text)) => {
                    accepted = true;
                    assert!(rt; text.as_slice() != design.as_slice());
                }
                Some((Err(refusal), text)) => {
                    refused = true;
                    assert_eq!(rt; refusal, EditRefusal::Memory);
                    assert_eq!(rt; text.as_slice(), design.as_slice());
                    assert!(rt; !accepted);
                }
                None => assert!(rt; !accepted),
            }
        }
        assert!(rt; refused && accepted);
    }
    Ok(())
}

/// What a run gives: its result, its answers, and the text in the end.
#[derive(Drop)]
struct Outputs {
    result: Result<Tally, RunFault>,
    answers: Vec<u8>,
    text: Vec<u8>,
}

/// What a run of a script gives in a heap of this many bytes. What it writes doesn't come out of that heap.
fn run_in(
    alloc: Global,
    hash_builder: RandomState,
    lefs: &LefTexts,
    design: &[u8],
    size: usize,
    script: &[u8],
) -> Result<Outputs, Fail> {
    let heap = LocalHeap::new(alloc, size)?;
    let mut script = Counted::new(script);
    let mut out = Counted::new(Vec::new(alloc));
    let mut def_out = Counted::new(Vec::new(alloc));
    let result = run(
        &heap,
        hash_builder,
        lefs,
        design,
        &mut script,
        &mut out,
        &mut def_out,
    );
    Ok(Outputs {
        result,
        answers: out.into_inner(),
        text: def_out.into_inner(),
    })
}

/// How a run of a script of an edit and a line that is bad ended.
#[derive(Clone, Copy)]
enum End {
    Done,
    RefusedForMemory,
    WantOfMemory,
    Otherwise,
}

/// How such a run ended. It may end with want of memory before its edit or after one that was done, and not after one that
/// memory was refused for: the answer to that takes less than the edit.
fn end_of(got: &Outputs, design: &[u8]) -> End {
    let answers = got.answers.as_slice();
    let text = got.text.as_slice();
    let is_before = answers.is_empty() || answers == b"ok 1\n".as_slice();
    match got.result {
        Err(RunFault::Memory) if is_before && text.is_empty() => End::WantOfMemory,
        Err(_) => End::Otherwise,
        Ok(_) if answers == b"ok 1\nbad 2\n".as_slice() && text != design => End::Done,
        Ok(_) if answers == b"refused 1 E14\nbad 2\n".as_slice() && text == design => {
            End::RefusedForMemory
        }
        Ok(_) => End::Otherwise,
    }
}

#[test]
fn a_run_goes_on_after_an_edit_that_memory_is_refused_for(rt: HostRuntime) -> Result<(), Fail> {
    let lefs = LefTexts::new(rt.alloc());
    let design = commented(rt.alloc())?;
    let hash_builder = RandomState::new(&rt)?;
    let scripts: [&[u8]; 2] = [
        b"place u1 460 0 N\nundo\n",
        b"text 2185 2187 a_much_longer_name\nundo\n",
    ];
    for script in scripts {
        let mut done = 0u64;
        let mut refused = 0u64;
        let mut wanting = 0u64;
        for size in 0..1280usize {
            let got = run_in(rt.alloc(), hash_builder, &lefs, &design, 16 * size, script)?;
            match end_of(&got, &design) {
                End::Done => done += 1,
                End::RefusedForMemory => refused += 1,
                End::WantOfMemory => wanting += 1,
                End::Otherwise => return Err("a run ended otherwise")?,
            }
        }
        assert!(rt; done > 0 && refused > 0 && wanting > 0);
    }
    Ok(())
}
