//! A small DEF text in pieces with its tables, which answers the look-ups of edits.

use counted_devices::counted::Counted;
use def_splice::lookups::LookUps;
use design_model::fault::{Fault, FaultCode, ReadError};
use design_model::mode::Section;
use design_text::text::DesignText;
use std::hash::RandomState;
use std::test::Fail;

const TEXT: &[u8] = b"VERSION 5.8 ;\nDESIGN d ;\nUNITS DISTANCE MICRONS 1000 ;\nCOMPONENTS 2 ;\n- u1 INV ;\n# two\n- u2 INV ;\nEND COMPONENTS\nPINS 1 ;\n- a + NET n ;\nEND PINS\nNETS 2 ;\n- n ( PIN a ) ( u1 A ) ;\n- m ( u2 A ) ;\nEND NETS\nEND DESIGN\n";

/// A component whose pins three entries list, one of them two.
const LISTED: &[u8] = b"UNITS DISTANCE MICRONS 1000 ;\nNETS 3 ;\n- n ( PIN a ) ( u1 A ) ;\n- m ( u1 B ) ( u1 C ) ( u2 A ) ;\n- o ( * D ) ;\nEND NETS\nSPECIALNETS 1 ;\n- p ( u1 E ) ;\nEND SPECIALNETS\nEND DESIGN\n";

/// The bytes of an entry and their place.
fn entry<'t>(text: &'t DesignText, section: Section, name: &[u8]) -> Option<(&'t [u8], usize)> {
    let entry = text.statement(section, name)?;
    Some((entry.bytes, entry.pos))
}

#[test]
fn entries_by_name(rt: HostRuntime) -> Result<(), Fail> {
    let text = DesignText::open(rt.alloc(), RandomState::new(&rt)?, TEXT)?;
    assert_eq!(rt; text.len(), TEXT.len());
    assert_eq!(rt; entry(&text, Section::Components, b"u1"), Some((b"- u1 INV ;".as_slice(), 70)));
    assert_eq!(rt; entry(&text, Section::Components, b"u2"), Some((b"- u2 INV ;".as_slice(), 87)));
    assert_eq!(rt; entry(&text, Section::Components, b"n"), None);
    assert_eq!(rt; entry(&text, Section::Nets, b"m"), Some((b"- m ( u2 A ) ;".as_slice(), 179)));
    assert_eq!(rt; text.entry(Section::Nets, b"m").is_some(), true);
    assert_eq!(rt; text.entry(Section::SpecialNets, b"m").is_some(), false);
    assert_eq!(rt; text.component(b"u2").is_some(), true);
    assert_eq!(rt; text.component(b"a").is_some(), false);
    Ok(())
}

#[test]
fn sections(rt: HostRuntime) -> Result<(), Fail> {
    let text = DesignText::open(rt.alloc(), RandomState::new(&rt)?, TEXT)?;
    assert_eq!(rt; text.entries_in(Section::Components), 2);
    assert_eq!(rt; text.entries_in(Section::Pins), 1);
    assert_eq!(rt; text.entries_in(Section::SpecialNets), 0);
    assert_eq!(rt; text.header(Section::Nets).is_some(), true);
    assert_eq!(rt; text.end(Section::Nets).is_some(), true);
    assert_eq!(rt; text.header(Section::Groups).is_some(), false);
    assert_eq!(rt; text.end(Section::Groups).is_some(), false);
    Ok(())
}

#[test]
fn terminals(rt: HostRuntime) -> Result<(), Fail> {
    let text = DesignText::open(rt.alloc(), RandomState::new(&rt)?, TEXT)?;
    assert_eq!(rt; text.is_listed(b"u1"), true);
    assert_eq!(rt; text.is_listed(b"PIN"), false);
    assert_eq!(rt; text.is_connected(b"u1", b"A"), true);
    assert_eq!(rt; text.is_connected(b"u1", b"B"), false);
    assert_eq!(rt; text.is_connected(b"PIN", b"a"), true);
    assert_eq!(rt; text.is_connected(b"PIN", b"A"), false);
    Ok(())
}

/// How many entries list a component, unless there are more than `most`.
fn listing(rt: &HostRuntime, text: &DesignText, component: &[u8], most: usize) -> Result<Option<usize>, Fail> {
    match text.entries_listing(rt.alloc(), component, most)? {
        Some(entries) => Ok(Some(entries.len())),
        None => Ok(None),
    }
}

#[test]
fn entries_that_list_a_component(rt: HostRuntime) -> Result<(), Fail> {
    let text = DesignText::open(rt.alloc(), RandomState::new(&rt)?, LISTED)?;
    assert_eq!(rt; listing(&rt, &text, b"u1", 3)?, Some(3));
    assert_eq!(rt; listing(&rt, &text, b"u1", 2)?, None);
    assert_eq!(rt; listing(&rt, &text, b"u2", 3)?, Some(1));
    assert_eq!(rt; listing(&rt, &text, b"PIN", 3)?, Some(0));
    assert_eq!(rt; listing(&rt, &text, b"u3", 0)?, Some(0));
    Ok(())
}

#[test]
fn written_text(rt: HostRuntime) -> Result<(), Fail> {
    let text = DesignText::open(rt.alloc(), RandomState::new(&rt)?, TEXT)?;
    let mut out = Counted::new(Vec::new(rt.alloc()));
    assert!(rt; text.write_to(&mut out).is_ok());
    assert_eq!(rt; out.into_inner().as_slice(), TEXT);
    Ok(())
}

#[test]
fn faults(rt: HostRuntime) -> Result<(), Fail> {
    let hash_builder = RandomState::new(&rt)?;
    let none = DesignText::open(rt.alloc(), hash_builder, b"VERSION 5.8 ;\nEND DESIGN\n");
    let no_units = Fault { code: FaultCode::NoUnits, pos: 25 };
    assert_eq!(rt; none.err(), Some(ReadError::Fault(no_units)));
    let twice = DesignText::open(rt.alloc(), hash_builder, b"UNITS DISTANCE MICRONS 1000 ;\nUNITS DISTANCE MICRONS 1000 ;\nEND DESIGN\n");
    let repeated = Fault { code: FaultCode::Repeated, pos: 30 };
    assert_eq!(rt; twice.err(), Some(ReadError::Fault(repeated)));
    Ok(())
}
