//! Where the parts of statements stand: each token at its own place, and repeated parts with their tokens.

use def_reader::entry::Entry;
use def_reader::read_statement::read_statement;
use def_reader::statement::Statement;
use design_model::mode::{Mode, Section};
use lef_reader::events::LefEvents;
use lef_reader::macro_block::MacroStatement;
use lef_reader::statement::LefStatement;
use lefdef_tokens::{Span, Token};
use std::test::Fail;
use wire_parts::nets::NetEntry;

/// The entry of a section that a text begins with.
fn entry_of(section: Section, text: &[u8]) -> Result<Entry<'_>, Fail> {
    let Ok(Some(read)) = read_statement(Mode::In(section), text, 0) else {
        return Err(Fail::from("it doesn't read"));
    };
    let Statement::Entry(entry) = read.statement else {
        return Err(Fail::from("it is no entry"));
    };
    Ok(entry)
}

/// The places of a token's first byte and of the one after its last.
fn place_of(token: Token<'_>) -> (usize, usize) {
    (token.pos, token.pos + token.bytes.len())
}

#[test]
fn terminals_stand_in_turn(rt: HostRuntime) -> Result<(), Fail> {
    let Entry::Net(NetEntry::Net(mut net)) = entry_of(Section::Nets, b"- n1 ( u1 Y ) ( u2 A ) ;")? else {
        return Err(Fail::from("it is no net"));
    };
    let mut spans = [Span { lo: 0, hi: 0 }; 3];
    let mut pins = [(0, 0); 3];
    let mut count = 0;
    while let Some((terminal, tokens)) = net.terminals.next_with_tokens() {
        spans[count] = tokens.span();
        pins[count] = place_of(terminal.pin);
        count += 1;
    }
    assert_eq!(rt; count, 2);
    assert_eq!(rt; spans[0], Span { lo: 5, hi: 13 });
    assert_eq!(rt; spans[1], Span { lo: 14, hi: 22 });
    assert_eq!(rt; pins[0], (10, 11));
    assert_eq!(rt; pins[1], (19, 20));
    Ok(())
}

#[test]
fn name_and_macro_of_the_same_bytes(rt: HostRuntime) -> Result<(), Fail> {
    let Entry::Component(parts) = entry_of(Section::Components, b"- INV INV ;")? else {
        return Err(Fail::from("it is no component"));
    };
    assert_eq!(rt; place_of(parts.name), (2, 5));
    assert_eq!(rt; place_of(parts.cell), (6, 9));
    Ok(())
}

#[test]
fn numbers_of_the_same_bytes(rt: HostRuntime) -> Result<(), Fail> {
    let mut events = LefEvents::new(b"MACRO m SIZE 1 BY 1 ; END m");
    while let Ok(Some(statement)) = events.next() {
        if let LefStatement::InMacro(MacroStatement::Size(width, height)) = statement {
            assert_eq!(rt; place_of(width), (13, 14));
            assert_eq!(rt; place_of(height), (18, 19));
            return Ok(());
        }
    }
    Err(Fail::from("there is no SIZE"))
}
