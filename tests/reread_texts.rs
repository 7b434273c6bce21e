//! Small DEF texts that are opened in pieces, and read again from an edit on.

use design_model::fault::{Fault, FaultCode, ReadError};
use design_model::mode::{Mode, Section};
use rereading::read_pieces::read_pieces;
use rereading::reread::reread;
use rereading::segments::{Segment, Segments};
use std::alloc::Global;
use std::test::Fail;

const IN_COMPONENTS: Mode = Mode::In(Section::Components);

/// What stands behind an edit of the first component.
const BEHIND: [Segment<'static>; 4] = [
    Segment { bytes: b"\n- u2 INV ;", mode: Some(IN_COMPONENTS) },
    Segment { bytes: b"\nEND COMPONENTS", mode: Some(IN_COMPONENTS) },
    Segment { bytes: b"\nEND DESIGN", mode: Some(Mode::Top) },
    Segment { bytes: b"\n", mode: Some(Mode::After) },
];

/// The same, where a later edit changed the second component.
const EDITED_TWICE: [Segment<'static>; 4] = [
    Segment { bytes: b"\n- u2 BUF ;", mode: None },
    Segment { bytes: b"\nEND COMPONENTS", mode: Some(IN_COMPONENTS) },
    Segment { bytes: b"\nEND DESIGN", mode: Some(Mode::Top) },
    Segment { bytes: b"\n", mode: Some(Mode::After) },
];

/// What rereading gives: how many pieces, their first and last modes, the mode after them, how many segments were used up,
/// bytes are left, and statements were read, and how often one was tried again.
#[derive(Clone, Copy, PartialEq, Eq, Debug)]
struct Told {
    pieces: usize,
    first: Option<Mode>,
    last: Option<Mode>,
    after: Mode,
    used: usize,
    rest: usize,
    reads: u64,
    again: u64,
}

fn outcome<S: Segments>(alloc: Global, first: Mode, raw: &[u8], segments: &S) -> Result<Told, ReadError> {
    let given = reread(alloc, first, raw, segments)?;
    Ok(Told {
        pieces: given.pieces.len(),
        first: given.pieces.first().map(|it| it.mode),
        last: given.pieces.last().map(|it| it.mode),
        after: given.mode,
        used: given.used,
        rest: given.rest.len(),
        reads: given.reads,
        again: given.again,
    })
}

/// Statements of components before old ones, of which each is used up since a statement wasn't whole.
fn components(pieces: usize, used: usize) -> Result<Told, ReadError> {
    let mode = if pieces == 0 { None } else { Some(IN_COMPONENTS) };
    Ok(Told { pieces, first: mode, last: mode, after: IN_COMPONENTS, used, rest: 0, reads: pieces as u64, again: used as u64 })
}

fn at(code: FaultCode, pos: usize) -> Result<Told, ReadError> {
    Err(ReadError::Fault(Fault { code, pos }))
}

#[test]
fn old_statements_go_on(rt: HostRuntime) {
    let behind: &[Segment<'static>] = &BEHIND;
    let rows: [(&[u8], Result<Told, ReadError>); 8] = [
        (b"", components(0, 0)),
        (b"\n- u1 INV + FIXED ( 0 0 ) N ;", components(1, 0)),
        (b"\n- u1 INV ;\n- u3 INV ;", components(2, 0)),
        // the semicolon is in a comment, so that the entry goes on into the next one
        (b"\n- u1 INV #;", components(1, 1)),
        // a comment stands in the piece of the statement after it
        (b"\n- u1 INV ; # new", components(2, 1)),
        // the section is closed before the next component
        (b"\nEND COMPONENTS", at(FaultCode::NoForm, 16)),
        (b"\n- u1 INV \";", at(FaultCode::OpenString, 10)),
        (b"\n- u1 INV BEGINEXT \x7f", at(FaultCode::RefusedByte, 19)),
    ];
    for (raw, want) in rows {
        assert_eq!(rt; outcome(rt.alloc(), IN_COMPONENTS, raw, &behind), want);
    }
}

#[test]
fn modes_differ_up_to_the_end(rt: HostRuntime) {
    let behind: &[Segment<'static>] = &BEHIND;
    let opened = Told {
        pieces: 4,
        first: Some(Mode::Top),
        last: Some(Mode::Top),
        after: Mode::After,
        used: 4,
        rest: 1,
        reads: 4,
        again: 0,
    };
    // the section begins anew, and its entries go on as before
    assert_eq!(rt; outcome(rt.alloc(), Mode::Top, b"COMPONENTS 1 ;", &behind), Ok(Told { pieces: 1, after: IN_COMPONENTS, used: 0, rest: 0, reads: 1, ..opened }));
    assert_eq!(rt; outcome(rt.alloc(), Mode::Top, b"COMPONENTS 1 ;\n- u1 INV ;\nEND COMPONENTS\nEND DESIGN # ", &behind), at(FaultCode::NoForm, 55));
}

#[test]
fn later_edits_are_read(rt: HostRuntime) {
    let behind: &[Segment<'static>] = &EDITED_TWICE;
    assert_eq!(rt; outcome(rt.alloc(), IN_COMPONENTS, b"\n- u1 BUF ;", &behind), components(2, 1));
}

#[test]
fn whole_texts_are_opened(rt: HostRuntime) -> Result<(), Fail> {
    let text = b"UNITS DISTANCE MICRONS 1000 ;\nCOMPONENTS 1 ;\n# first\n- u1 INV ;\nEND COMPONENTS\nEND DESIGN\n# last\n";
    let opened = read_pieces(rt.alloc(), text)?;
    let modes = [Mode::Top, Mode::Top, IN_COMPONENTS, IN_COMPONENTS, Mode::Top];
    let bytes: [&[u8]; 5] = [
        b"UNITS DISTANCE MICRONS 1000 ;",
        b"\nCOMPONENTS 1 ;",
        b"\n# first\n- u1 INV ;",
        b"\nEND COMPONENTS",
        b"\nEND DESIGN",
    ];
    assert_eq!(rt; opened.pieces.len(), 5);
    for i in 0..5 {
        assert_eq!(rt; opened.pieces[i].mode, modes[i]);
        assert_eq!(rt; opened.pieces[i].bytes.as_slice(), bytes[i]);
    }
    assert_eq!(rt; opened.tail.as_slice(), b"\n# last\n".as_slice());
    assert_eq!(rt; opened.reads, 5);
    Ok(())
}

#[test]
fn no_segments_are_a_whole_text(rt: HostRuntime) {
    let none: &[Segment<'static>] = &[];
    let text = b"UNITS DISTANCE MICRONS 1000 ;\nEND DESIGN\n";
    let opened = Told {
        pieces: 2,
        first: Some(Mode::Top),
        last: Some(Mode::Top),
        after: Mode::After,
        used: 0,
        rest: 1,
        reads: 2,
        again: 0,
    };
    assert_eq!(rt; outcome(rt.alloc(), Mode::Top, text, &none), Ok(opened));
    assert_eq!(rt; outcome(rt.alloc(), Mode::Top, b"", &none), at(FaultCode::Unfinished, 0));
    assert_eq!(rt; outcome(rt.alloc(), Mode::Top, b"UNITS DISTANCE MICRONS 1000 ;\nEND DESIGN ;", &none), at(FaultCode::NoForm, 41));
}
