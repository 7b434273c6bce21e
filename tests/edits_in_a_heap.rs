//! Many edits in a heap of a fixed size: what an edit alone keeps is let go before the next one.

use crate::texts::{PINNED, TWO_CONNECTED};
use cell_library::lef_texts::LefTexts;
use cell_library::library::Library;
use design_model::geometry::Orient;
use edit_model::edit::{Edit, EditRefusal};
use edit_session::session::Session;
use linked_list_allocator::LocalHeap;
use std::hash::RandomState;
use std::test::Fail;

/// How many turns are made: many times as many as the heap has room for, if each kept something.
const TURNS: usize = 3000;

/// A name of its own for each turn.
fn name_of(turn: usize) -> [u8; 7] {
    let mut name = *b"x000000";
    let mut left = turn;
    for place in 1..name.len() {
        name[place] = b'0' + (left % 10) as u8;
        left /= 10;
    }
    name
}

#[test]
fn memory_does_not_grow_with_edits(rt: HostRuntime) -> Result<(), Fail> {
    let mut lefs = LefTexts::new(rt.alloc());
    lefs.push(PINNED)?;
    let heap = LocalHeap::new(rt.alloc(), 1 << 16)?;
    let hash_builder = RandomState::new(&rt)?;
    let Ok(library) = Library::read(&heap, hash_builder, &lefs) else {
        return Err(Fail::from("the library was not read"));
    };
    let Ok(mut session) = Session::open(&heap, &library, TWO_CONNECTED) else {
        return Err(Fail::from("the session was not opened"));
    };
    for turn in 0..TURNS {
        let name = name_of(turn);
        assert!(rt; session.edit(&Edit::Add { component: &name, cell: b"INV" }).is_ok());
        let place = Edit::Place { component: &name, x: turn as i64, y: 0, orient: Orient::N };
        assert!(rt; session.edit(&place).is_ok());
        assert!(rt; session.edit(&Edit::Remove { component: &name }).is_ok());

        // A statement that may stand once is refused where it would come again.
        match session.text_edit(0, 0, b"UNITS DISTANCE MICRONS 1000 ;\n") {
            Err(EditRefusal::Unreadable(_)) => {}
            _ => return Err(Fail::from("UNITS came twice")),
        }
    }
    Ok(())
}
