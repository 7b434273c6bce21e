//! The calls of LEF texts, of a library and of a session, one after the other, and those that the README shows.

use crate::texts::{INVERTER, TWO_INVERTERS};
use cell_library::lef_texts::LefTexts;
use cell_library::library::Library;
use counted_devices::counted::Counted;
use design_model::diagnostic::DiagLines;
use edit_model::edit::{Done, Edit, EditCode, EditRefusal};
use design_model::geometry::Orient;
use edit_session::session::Session;
use std::alloc::Global;
use std::hash::RandomState;
use std::test::Fail;

#[test]
fn lef_texts_are_kept_in_order(rt: HostRuntime) -> Result<(), Fail> {
    let mut lefs = LefTexts::new(rt.alloc());
    assert_eq!(rt; lefs.as_slice().len(), 0);
    lefs.push(INVERTER)?;
    lefs.push(b"")?;
    let texts = lefs.as_slice();
    assert_eq!(rt; texts.len(), 2);
    assert_eq!(rt; texts[0].as_slice(), INVERTER);
    assert_eq!(rt; texts[1].as_slice(), b"".as_slice());
    Ok(())
}

/// Whether a macro has a CLASS, and its width and height at 1000 units in a micron.
fn measured(library: &Library<'_>, name: &[u8]) -> Option<(bool, i64, i64)> {
    let cell = library.macro_of(name)?;
    let size = cell.size(1000);
    Some((cell.cell_class().is_some(), size.x, size.y))
}

#[test]
fn a_library_has_the_first_macro_of_each_name(rt: HostRuntime) -> Result<(), Fail> {
    let mut lefs = LefTexts::new(rt.alloc());
    lefs.push(INVERTER)?;
    lefs.push(b"MACRO INV SIZE 2 BY 3 ; END INV MACRO bare END bare")?;
    let library = Library::read(rt.alloc(), RandomState::new(&rt)?, &lefs)?;
    assert_eq!(rt; measured(&library, b"INV"), Some((true, 920, 2720)));
    assert_eq!(rt; measured(&library, b"bare"), Some((false, 0, 0)));
    assert!(rt; library.macro_of(b"core").is_none());
    Ok(())
}

/// What the calls of a session give, one after the other.
#[derive(Drop)]
struct Given {
    opened: usize,
    placed: Result<Done, EditRefusal>,
    refused: Result<Done, EditRefusal>,
    then: usize,
    edited: Result<Done, EditRefusal>,
    lines: DiagLines,
    text: Vec<u8>,
}

/// A placement of the first inverter.
fn place(x: i64) -> Edit<'static> {
    Edit::Place {
        component: b"u1",
        x,
        y: 0,
        orient: Orient::N,
    }
}

/// The calls of a session from its opening to its text.
fn answers(alloc: Global, hash_builder: RandomState) -> Result<Given, Fail> {
    let mut lefs = LefTexts::new(alloc);
    lefs.push(INVERTER)?;
    let library = Library::read(alloc, hash_builder, &lefs)?;
    let mut session = Session::open(alloc, &library, TWO_INVERTERS)?;
    let opened = session.text_len();
    let placed = session.edit(&place(1));
    let refused = session.edit(&place(2147483648));
    let then = session.text_len();
    let edited = session.text_edit(179, 180, b"3");
    let lines = session.diagnostics()?;
    let mut out = Counted::new(Vec::new(alloc));
    session.write_to(&mut out)?;
    Ok(Given {
        opened,
        placed,
        refused,
        then,
        edited,
        lines,
        text: out.into_inner(),
    })
}

#[test]
fn a_session_from_its_opening_to_its_text(rt: HostRuntime) -> Result<(), Fail> {
    let given = answers(rt.alloc(), RandomState::new(&rt)?)?;
    let done = Done { reads: 1, tests: 0 };
    let out_of_range = EditRefusal::Refused(EditCode::Number);
    assert_eq!(rt; given.opened, 252);
    assert_eq!(rt; given.placed, Ok(done));
    assert_eq!(rt; given.refused, Err(out_of_range));
    assert_eq!(rt; given.then, 271);
    assert_eq!(rt; given.edited, Ok(done));
    assert_eq!(rt; given.lines.len(), 3);
    let wanted: [&[u8]; 3] = [b"count COMPONENTS 3 2", b"offsite u1", b"overlap u1 u2"];
    for (line, text) in given.lines.as_slice().iter().zip(wanted) {
        assert_eq!(rt; line.text.as_slice(), text);
    }
    assert_eq!(rt; given.text.len(), 271);
    Ok(())
}

/// What the README shows of the library.
fn placed(
    alloc: Global,
    hash_builder: RandomState,
    lef: &[u8],
    def: &[u8],
) -> Result<(usize, Vec<u8>), Fail> {
    let mut lefs = LefTexts::new(alloc);
    lefs.push(lef)?;
    let library = Library::read(alloc, hash_builder, &lefs)?;
    let mut session = Session::open(alloc, &library, def)?;
    session.edit(&Edit::Place {
        component: b"u1",
        x: 919,
        y: 0,
        orient: Orient::N,
    })?;
    let lines = session.diagnostics()?;
    let mut out = Counted::new(Vec::new(alloc));
    session.write_to(&mut out)?;
    Ok((lines.len(), out.into_inner()))
}

#[test]
fn the_calls_that_the_readme_shows(rt: HostRuntime) -> Result<(), Fail> {
    let (diagnostics, text) = placed(rt.alloc(), RandomState::new(&rt)?, INVERTER, TWO_INVERTERS)?;
    assert_eq!(rt; diagnostics, 2);
    assert_eq!(rt; text.len(), 273);
    Ok(())
}
