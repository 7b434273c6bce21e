//! All edits of a design by the calls of a session, what is measured of it, and each growth of each edit refused in turn.

use crate::texts::{INVERTER, PINNED, TWO_CONNECTED, TWO_INVERTERS};
use cell_library::lef_texts::LefTexts;
use cell_library::library::Library;
use counted_devices::counted::Counted;
use design_model::geometry::{Orient, Rect};
use design_model::identifier::LayerId;
use edit_model::edit::{Done, Edit, EditRefusal};
use edit_session::session::Session;
use linked_list_allocator::LocalHeap;
use std::alloc::Global;
use std::hash::RandomState;
use std::test::Fail;

/// The edits of a session, one of each kind, each of which is accepted after those before it.
const EDITS: [Edit<'static>; 10] = [
    Edit::Place { component: b"u1", x: 460, y: -1, orient: Orient::FS },
    Edit::Unplace { component: b"u2" },
    Edit::Remaster { component: b"u1", cell: b"BUF" },
    Edit::Connect { net: b"VDD", owner: b"u1", pin: b"A" },
    Edit::Disconnect { net: b"n1", owner: b"u2", pin: b"A" },
    Edit::Route { net: b"VDD", wiring: b"+ ROUTED met1 10 ( 0 0 ) ( 10 * )" },
    Edit::Unroute { net: b"n1" },
    Edit::Add { component: b"u3", cell: b"INV" },
    Edit::Remove { component: b"u2" },
    Edit::Block { layer: Some(b"met1"), x1: 0, y1: 0, x2: 10, y2: -10 },
];

/// The text after all of them.
const EDITED: &[u8] = b"UNITS DISTANCE MICRONS 1000 ;\n\
GCELLGRID X 0 DO 3 STEP 1000 ;\nGCELLGRID Y 0 DO 2 STEP 3000 ;\n\
COMPONENTS 3 ;\n- u0 BUF ;\n- u1 BUF + PLACED ( 460 -1 ) FS ;\n\n- u3 INV ;\nEND COMPONENTS\n\
BLOCKAGES 1 ;\n- LAYER met1 RECT ( 0 0 ) ( 10 -10 ) ;\nEND BLOCKAGES\n\
SPECIALNETS 1 ;\n- VDD ( * VDD ) ( u1 A ) + USE POWER + ROUTED met1 10 ( 0 0 ) ( 10 * ) ;\nEND SPECIALNETS\n\
NETS 1 ;\n- n1 ( u1 Y )   ;\nEND NETS\n\
END DESIGN\n";

#[test]
fn each_kind_of_edit_of_a_session(rt: HostRuntime) -> Result<(), Fail> {
    let alloc = rt.alloc();
    let mut lefs = LefTexts::new(alloc);
    lefs.push(PINNED)?;
    let library = Library::read(alloc, RandomState::new(&rt)?, &lefs)?;
    let mut session = Session::open(alloc, &library, TWO_CONNECTED)?;
    for edit in &EDITS {
        let done = session.edit(edit)?;
        assert!(rt; done.reads <= 5 && done.tests == 0, "{}", done.reads);
    }
    let mut out = Counted::new(Vec::new(alloc));
    session.write_to(&mut out)?;
    assert_eq!(rt; out.into_inner().as_slice(), EDITED);
    Ok(())
}

/// A design of so many components that aren't placed.
fn unplaced(alloc: Global, count: usize) -> Result<Vec<u8>, Fail> {
    let mut text = Vec::new(alloc);
    text.extend_from_slice(b"UNITS DISTANCE MICRONS 1000 ;\nCOMPONENTS 10000 ;\n")?;
    for number in 0..count {
        text.extend_from_slice(b"- c")?;
        let mut rest = number;
        for _ in 0..5 {
            text.push(b'0' + (rest % 10) as u8)?;
            rest /= 10;
        }
        text.extend_from_slice(b" INV ;\n")?;
    }
    text.extend_from_slice(b"END COMPONENTS\nEND DESIGN\n")?;
    Ok(text)
}

#[test]
fn few_statements_are_read(rt: HostRuntime) -> Result<(), Fail> {
    let alloc = rt.alloc();
    let mut lefs = LefTexts::new(alloc);
    lefs.push(INVERTER)?;
    let library = Library::read(alloc, RandomState::new(&rt)?, &lefs)?;
    let text = unplaced(alloc, 10000)?;
    let mut session = Session::open(alloc, &library, &text)?;
    // an entry, what is behind it, and the first and the last of a section
    for component in [b"c01000".as_slice(), b"c00000", b"c99990", b"c01000"] {
        let done = session.edit(&Edit::Place { component, x: 0, y: 0, orient: Orient::N })?;
        assert!(rt; done.reads > 0 && done.reads <= 2, "{}", done.reads);
    }
    let done = session.edit(&Edit::Add { component: b"u9", cell: b"INV" })?;
    assert!(rt; done.reads > 0 && done.reads <= 5, "{}", done.reads);
    let done = session.edit(&Edit::Remove { component: b"c05000" })?;
    assert!(rt; done.reads > 0 && done.reads <= 5, "{}", done.reads);
    // a comment that hides the end of an entry
    let mut session = Session::open(alloc, &library, TWO_INVERTERS)?;
    let done = session.text_edit(183, 183, b"#")?;
    assert!(rt; done.reads > 0 && done.reads <= 2, "{}", done.reads);
    Ok(())
}

/// Puts a number of five digits behind a text.
fn push_number(text: &mut Vec<u8>, number: usize) -> Result<(), Fail> {
    for place in [10000, 1000, 100, 10, 1] {
        text.push(b'0' + (number / place % 10) as u8)?;
    }
    Ok(())
}

/// A design of 100 by 100 components that touch, in no rows and without nets.
fn touching(alloc: Global) -> Result<Vec<u8>, Fail> {
    let mut text = Vec::new(alloc);
    text.extend_from_slice(b"UNITS DISTANCE MICRONS 1000 ;\nCOMPONENTS 10000 ;\n")?;
    for number in 0..10000 {
        text.extend_from_slice(b"- c")?;
        push_number(&mut text, number)?;
        text.extend_from_slice(b" INV + PLACED ( ")?;
        push_number(&mut text, number % 100 * 920)?;
        text.push(b' ')?;
        push_number(&mut text, number / 100 * 272)?;
        text.extend_from_slice(b"0 ) N ;\n")?;
    }
    text.extend_from_slice(b"END COMPONENTS\nEND DESIGN\n")?;
    Ok(text)
}

#[test]
fn few_boxes_are_compared(rt: HostRuntime) -> Result<(), Fail> {
    let alloc = rt.alloc();
    let mut lefs = LefTexts::new(alloc);
    lefs.push(INVERTER)?;
    let library = Library::read(alloc, RandomState::new(&rt)?, &lefs)?;
    let text = touching(alloc)?;
    let mut session = Session::open(alloc, &library, &text)?;
    // without lines that are known nothing is compared
    let done = session.edit(&Edit::Place { component: b"c05050", x: 46000, y: 136000, orient: Orient::N })?;
    assert_eq!(rt; done.tests, 0);
    let before = session.diagnostics()?.len();
    for (component, x, y) in [(b"c05050", 920, 2720), (b"c05050", 46000, 136000), (b"c00000", 91080, 269280)] {
        let done = session.edit(&Edit::Place { component, x, y, orient: Orient::N })?;
        assert!(rt; done.tests > 0 && done.tests <= 300, "{}", done.tests);
    }
    assert_eq!(rt; session.diagnostics()?.len(), before + 1);
    Ok(())
}

/// A design of a component and 10000 rectangles beside each other where placement is blocked, the first of which it lies on.
fn blocked(alloc: Global) -> Result<Vec<u8>, Fail> {
    let mut text = Vec::new(alloc);
    text.extend_from_slice(b"UNITS DISTANCE MICRONS 1000 ;\nCOMPONENTS 1 ;\n- c INV + PLACED ( 10000 10000 ) N ;\n")?;
    text.extend_from_slice(b"END COMPONENTS\nBLOCKAGES 10000 ;\n")?;
    for number in 0..10000 {
        let x = 10000 + number % 100 * 800;
        let y = 10000 + number / 100 * 800;
        text.extend_from_slice(b"- PLACEMENT RECT ( ")?;
        push_number(&mut text, x)?;
        text.push(b' ')?;
        push_number(&mut text, y)?;
        text.extend_from_slice(b" ) ( ")?;
        push_number(&mut text, x + 500)?;
        text.push(b' ')?;
        push_number(&mut text, y + 500)?;
        text.extend_from_slice(b" ) ;\n")?;
    }
    text.extend_from_slice(b"END BLOCKAGES\nEND DESIGN\n")?;
    Ok(text)
}

#[test]
fn few_blockages_are_compared(rt: HostRuntime) -> Result<(), Fail> {
    let alloc = rt.alloc();
    let mut lefs = LefTexts::new(alloc);
    lefs.push(INVERTER)?;
    let library = Library::read(alloc, RandomState::new(&rt)?, &lefs)?;
    let text = blocked(alloc)?;
    let mut session = Session::open(alloc, &library, &text)?;
    let before = session.diagnostics()?.len();
    for (x, y) in [(41840, 42720), (10000, 10000)] {
        let done = session.edit(&Edit::Place { component: b"c", x, y, orient: Orient::N })?;
        assert!(rt; done.tests > 0 && done.tests <= 300, "{}", done.tests);
    }
    assert_eq!(rt; session.diagnostics()?.len(), before);
    Ok(())
}

#[test]
fn a_component_and_a_blockage_follow_at_once(rt: HostRuntime) -> Result<(), Fail> {
    let alloc = rt.alloc();
    let mut lefs = LefTexts::new(alloc);
    lefs.push(INVERTER)?;
    let library = Library::read(alloc, RandomState::new(&rt)?, &lefs)?;
    let text = b"UNITS DISTANCE MICRONS 1000 ;\nCOMPONENTS 2 ;\n- a INV + PLACED ( 0 0 ) N ;\n- c INV + PLACED ( 10000 10000 ) N ;\nEND COMPONENTS\nBLOCKAGES 1 ;\n- PLACEMENT RECT ( 10000 10000 ) ( 11000 11000 ) ;\nEND BLOCKAGES\nEND DESIGN\n";
    let mut session = Session::open(alloc, &library, text)?;
    let before = session.diagnostics()?.len();
    // both go to where the other component is: one overlap, and one more component that is blocked
    let put = b"0 0 ) N ;\nEND COMPONENTS\nBLOCKAGES 1 ;\n- PLACEMENT RECT ( 0 0";
    let done = session.text_edit(93, 170, put)?;
    assert!(rt; done.tests > 0, "{}", done.tests);
    assert_eq!(rt; session.diagnostics()?.len(), before + 2);
    Ok(())
}

/// Three inverters, and nets with an entry in each of two sections, in this order.
fn with_two_entries(alloc: Global, sections: [&[u8]; 2]) -> Result<Vec<u8>, Fail> {
    let mut text = Vec::new(alloc);
    text.extend_from_slice(b"UNITS DISTANCE MICRONS 1000 ;\nCOMPONENTS 3 ;\n- u1 INV + PLACED ( 0 0 ) N ;\n- u2 INV + PLACED ( 920 0 ) N ;\n")?;
    text.extend_from_slice(b"- u3 INV + PLACED ( 90000 90000 ) N ;\nEND COMPONENTS\n")?;
    for section in sections {
        text.extend_from_slice(section)?;
    }
    text.extend_from_slice(b"END DESIGN\n")?;
    Ok(text)
}

#[test]
fn nets_of_two_entries_are_followed(rt: HostRuntime) -> Result<(), Fail> {
    let alloc = rt.alloc();
    let mut lefs = LefTexts::new(alloc);
    lefs.push(PINNED)?;
    let library = Library::read(alloc, RandomState::new(&rt)?, &lefs)?;
    let special: &[u8] = b"SPECIALNETS 2 ;\n- VDD ( * VDD ) + USE POWER ;\n- n1 + ROUTED met1 140 ( 700 1100 ) ( 700 1500 ) ;\nEND SPECIALNETS\n";
    let nets: &[u8] = b"NETS 2 ;\n- VDD + USE POWER ;\n- n1 ( u1 Y ) ( u2 A ) ( u3 A ) + ROUTED met1 ( 700 1100 ) ( 1120 * ) ;\nEND NETS\n";
    for sections in [[special, nets], [nets, special]] {
        let text = with_two_entries(alloc, sections)?;
        let mut session = Session::open(alloc, &library, &text)?;
        session.diagnostics()?;
        let edits = [
            Edit::Place { component: b"u3", x: 180000, y: 0, orient: Orient::N },
            Edit::Route { net: b"n1", wiring: b"+ ROUTED met1 ( 1120 1100 ) ( * 1500 )" },
            Edit::Unroute { net: b"n1" },
        ];
        for edit in &edits {
            // no box is near that of u3: what is compared are shapes of nets
            let done = session.edit(edit)?;
            assert!(rt; done.tests > 0, "{}", done.tests);
            let mut out = Counted::new(Vec::new(alloc));
            session.write_to(&mut out)?;
            let now = out.into_inner();
            let mut fresh = Session::open(alloc, &library, &now)?;
            assert_eq!(rt; session.diagnostics()?.len(), fresh.diagnostics()?.len());
            assert_eq!(rt; session.net_length(b"n1")?, fresh.net_length(b"n1")?);
            assert_eq!(rt; session.net_box(b"n1")?, fresh.net_box(b"n1")?);
        }
    }
    Ok(())
}

/// What a session tells of a net, of all nets, and of a cell.
#[derive(Clone, Copy, PartialEq, Eq, Debug)]
struct Told {
    length: Option<u64>,
    bounds: Option<Option<Rect>>,
    total: u64,
    first: Option<u128>,
    outside: Option<u128>,
    placed: Option<u128>,
}

/// What a session of this design tells, before an edit and after it.
fn told(session: &mut Session<'_, '_>) -> Result<Told, Fail> {
    Ok(Told {
        length: session.net_length(b"n1")?,
        bounds: session.net_box(b"n1")?,
        total: session.total_length()?,
        first: session.cell(0, 0, LayerId(0))?,
        outside: session.cell(2, 0, LayerId(0))?,
        placed: session.place_cell(1, 0)?,
    })
}

#[test]
fn measures_follow_the_text(rt: HostRuntime) -> Result<(), Fail> {
    let alloc = rt.alloc();
    let mut lefs = LefTexts::new(alloc);
    lefs.push(PINNED)?;
    let library = Library::read(alloc, RandomState::new(&rt)?, &lefs)?;
    let mut session = Session::open(alloc, &library, TWO_CONNECTED)?;
    let bounds = Rect { x1: 600, y1: 1000, x2: 1220, y2: 1200 };
    let before = Told {
        length: Some(420),
        bounds: Some(Some(bounds)),
        total: 420,
        // The pin Y is 200 by 200, the wire 370 by 140 up to x = 1000, and the supply pins are 920 and 80 by 240.
        first: Some(40000 + 51800 + 240000),
        outside: None,
        // Of the second inverter 840 by 2720 lie there.
        placed: Some(2284800),
    };
    assert_eq!(rt; told(&mut session)?, before);
    session.edit(&Edit::Unroute { net: b"n1" })?;
    session.edit(&Edit::Unplace { component: b"u2" })?;
    let pin = Rect { x1: 600, y1: 1000, x2: 800, y2: 1200 };
    let after = Told {
        length: Some(0),
        bounds: Some(Some(pin)),
        total: 0,
        first: Some(40000 + 220800),
        outside: None,
        placed: Some(0),
    };
    assert_eq!(rt; told(&mut session)?, after);
    assert!(rt; session.net_length(b"n2")?.is_none());
    assert!(rt; session.net_box(b"n2")?.is_none());
    assert!(rt; session.cell(0, 0, LayerId(3))?.is_none());
    Ok(())
}

/// What a session in a heap of this many bytes answers to an edit, and its text then; none where the heap is too small to open it.
fn edited_in(
    alloc: Global,
    hash_builder: RandomState,
    lefs: &LefTexts,
    size: usize,
    edit: &Edit<'_>,
) -> Result<Option<(Result<Done, EditRefusal>, Vec<u8>)>, Fail> {
    let heap = LocalHeap::new(alloc, size)?;
    let Ok(library) = Library::read(&heap, hash_builder, lefs) else {
        return Ok(None);
    };
    let Ok(mut session) = Session::open(&heap, &library, TWO_CONNECTED) else {
        return Ok(None);
    };
    let reply = session.edit(edit);
    let mut out = Counted::new(Vec::new(alloc));
    if session.write_to(&mut out).is_err() {
        return Err(Fail::from("the text was not written"));
    }
    Ok(Some((reply, out.into_inner())))
}

/// An edit of each kind that the first text accepts.
const FIRST_EDITS: [Edit<'static>; 10] = [
    Edit::Place { component: b"u1", x: 123456789, y: 123456789, orient: Orient::FS },
    Edit::Unplace { component: b"u2" },
    Edit::Remaster { component: b"u1", cell: b"BUF" },
    Edit::Connect { net: b"VDD", owner: b"u1", pin: b"A" },
    Edit::Disconnect { net: b"n1", owner: b"u2", pin: b"A" },
    Edit::Route { net: b"n1", wiring: b"+ ROUTED met1 ( 0 0 ) ( 10 * ) + ROUTED met1 ( 0 0 ) ( 10 * )" },
    Edit::Unroute { net: b"n1" },
    Edit::Add { component: b"u3", cell: b"INV" },
    Edit::Remove { component: b"u0" },
    Edit::Block { layer: None, x1: 123456789, y1: 123456789, x2: 1, y2: 1 },
];

#[test]
fn each_growth_refused_leaves_the_text_of_each_edit(rt: HostRuntime) -> Result<(), Fail> {
    let mut lefs = LefTexts::new(rt.alloc());
    lefs.push(PINNED)?;
    let hash_builder = RandomState::new(&rt)?;
    for edit in &FIRST_EDITS {
        let mut accepted = false;
        for size in 0..512usize {
            match edited_in(rt.alloc(), hash_builder, &lefs, 64 * size, edit)? {
                Some((Ok(_), text)) => {
                    accepted = true;
                    assert!(rt; text.as_slice() != TWO_CONNECTED);
                }
                Some((Err(refusal), text)) => {
                    assert_eq!(rt; refusal, EditRefusal::Memory);
                    assert_eq!(rt; text.as_slice(), TWO_CONNECTED);
                    assert!(rt; !accepted);
                }
                None => assert!(rt; !accepted),
            }
        }
        assert!(rt; accepted);
    }
    Ok(())
}
