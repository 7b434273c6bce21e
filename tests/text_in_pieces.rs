//! A small DEF text that is kept in pieces, and asked for its statements.

use counted_devices::counted::Counted;
use design_model::fault::{Fault, FaultCode, ReadError};
use design_model::identifier::StmtId;
use design_model::mode::{Mode, Section};
use std::alloc::{AllocError, Global};
use std::test::Fail;
use text_pieces::prepared::{PrepareError, TextCut};
use text_pieces::text::TextPieces;

const TEXT: &[u8] = b"VERSION 5.8 ;\nDESIGN d ;\n# two\nCOMPONENTS 2 ;\n- u1 INV ;\n- u2 INV ;\nEND COMPONENTS\nEND DESIGN\n";

/// The number of a statement by how many stand before it.
fn nth(text: &TextPieces, n: usize) -> Option<StmtId> {
    let mut id = text.first()?;
    for _ in 0..n {
        id = text.next(id)?;
    }
    Some(id)
}

/// The bytes, the mode and the place of a statement by how many stand before it.
fn told<'t>(text: &'t TextPieces, n: usize) -> Option<(&'t [u8], Mode, usize)> {
    let id = nth(text, n)?;
    Some((text.statement(id)?, text.mode(id)?, text.offset(id)?))
}

#[test]
fn statements_by_number(rt: HostRuntime) -> Result<(), Fail> {
    let text = TextPieces::open(rt.alloc(), TEXT)?;
    assert_eq!(rt; text.len(), TEXT.len());
    assert_eq!(rt; told(&text, 0), Some((b"VERSION 5.8 ;".as_slice(), Mode::Top, 0)));
    assert_eq!(rt; told(&text, 2), Some((b"COMPONENTS 2 ;".as_slice(), Mode::Top, 31)));
    assert_eq!(rt; told(&text, 4), Some((b"- u2 INV ;".as_slice(), Mode::In(Section::Components), 57)));
    assert_eq!(rt; told(&text, 6), Some((b"END DESIGN".as_slice(), Mode::Top, 83)));
    assert_eq!(rt; told(&text, 7), None);
    Ok(())
}

#[test]
fn statements_by_position(rt: HostRuntime) -> Result<(), Fail> {
    let text = TextPieces::open(rt.alloc(), TEXT)?;
    let second = nth(&text, 4);
    assert_eq!(rt; text.find_at(56), None);
    assert_eq!(rt; text.find_at(57), second);
    assert_eq!(rt; text.find_at(66), second);
    assert_eq!(rt; text.find_at(67), None);
    assert_eq!(rt; text.find_at(TEXT.len()), None);
    assert_eq!(rt; second.and_then(|id| text.prev(id)), nth(&text, 3));
    assert_eq!(rt; nth(&text, 0).and_then(|id| text.prev(id)), None);
    Ok(())
}

#[test]
fn written_text(rt: HostRuntime) -> Result<(), Fail> {
    let text = TextPieces::open(rt.alloc(), TEXT)?;
    let mut out = Counted::new(Vec::new(rt.alloc()));
    assert!(rt; text.write_to(&mut out).is_ok());
    assert_eq!(rt; out.into_inner().as_slice(), TEXT);
    Ok(())
}

/// A text of so many components, which stand in several chunks.
fn long_text(alloc: Global, components: usize) -> Result<Vec<u8>, AllocError> {
    let mut text = Vec::from_slice(alloc, b"DESIGN d ;\nCOMPONENTS 2500 ;\n")?;
    for k in 0..components {
        text.extend_from_slice(format!(in alloc; "- u{k} INV ;\n")?.as_bytes())?;
    }
    text.extend_from_slice(b"END COMPONENTS\nEND DESIGN\n")?;
    Ok(text)
}

#[test]
fn statements_of_several_chunks(rt: HostRuntime) -> Result<(), Fail> {
    let bytes = long_text(rt.alloc(), 2500)?;
    let text = TextPieces::open(rt.alloc(), &bytes)?;
    let mut id = text.first();
    let mut before = None;
    let mut statements = 0;
    while let Some(here) = id {
        let place = text.offset(here);
        assert_eq!(rt; place.and_then(|it| text.find_at(it)), Some(here));
        assert_eq!(rt; text.prev(here), before);
        before = Some(here);
        id = text.next(here);
        statements += 1;
    }
    assert_eq!(rt; statements, 2504);
    assert_eq!(rt; nth(&text, 1002).and_then(|it| text.statement(it)), Some(b"- u1000 INV ;".as_slice()));
    Ok(())
}

#[test]
fn texts_that_do_not_read(rt: HostRuntime) -> Result<(), Fail> {
    let unfinished = TextPieces::open(rt.alloc(), b"VERSION 5.8 ;\nDESIGN d");
    assert_eq!(rt; unfinished.err(), Some(ReadError::Fault(Fault { code: FaultCode::Unfinished, pos: 14 })));
    Ok(())
}

/// Whether what is written of a text is these bytes.
fn writes(text: &TextPieces, bytes: &[u8], alloc: Global) -> bool {
    let mut out = Counted::new(Vec::new(alloc));
    text.write_to(&mut out).is_ok() && out.into_inner().as_slice() == bytes
}

#[test]
fn change_made_and_taken_back(rt: HostRuntime) -> Result<(), Fail> {
    let mut text = TextPieces::open(rt.alloc(), TEXT)?;
    let second = nth(&text, 4);
    let mut change = text.prepare(rt.alloc(), 57, 67, b"- u2 BUF ;\n- u3 INV ;")?;
    assert_eq!(rt; change.reads(), 2);
    assert_eq!(rt; change.out().first().copied(), second);
    assert_eq!(rt; (change.out().len(), change.put().len()), (1, 2));
    assert!(rt; writes(&text, TEXT, rt.alloc()));
    text.commit(&mut change);
    assert_eq!(rt; change.put().first().copied(), second);
    assert_eq!(rt; nth(&text, 4), change.out().first().copied());
    assert_eq!(rt; second.and_then(|id| text.statement(id)), None);
    assert_eq!(rt; told(&text, 5), Some((b"- u3 INV ;".as_slice(), Mode::In(Section::Components), 68)));
    assert!(rt; writes(&text, b"VERSION 5.8 ;\nDESIGN d ;\n# two\nCOMPONENTS 2 ;\n- u1 INV ;\n- u2 BUF ;\n- u3 INV ;\nEND COMPONENTS\nEND DESIGN\n", rt.alloc()));
    text.commit(&mut change);
    assert_eq!(rt; nth(&text, 4), second);
    assert!(rt; writes(&text, TEXT, rt.alloc()));
    Ok(())
}

#[test]
fn changes_that_are_not_prepared(rt: HostRuntime) -> Result<(), Fail> {
    let mut text = TextPieces::open(rt.alloc(), TEXT)?;
    assert_eq!(rt; text.prepare(rt.alloc(), 5, 4, b"").err(), Some(PrepareError::Range));
    assert_eq!(rt; text.prepare(rt.alloc(), 5, TEXT.len() + 1, b"").err(), Some(PrepareError::Range));
    assert_eq!(rt; text.prepare(rt.alloc(), 57, 67, b"- u2 \"INV ;").err(), Some(PrepareError::Fault));
    assert_eq!(rt; text.prepare(rt.alloc(), 68, 82, b"").err(), Some(PrepareError::Fault));
    assert!(rt; writes(&text, TEXT, rt.alloc()));
    Ok(())
}

#[test]
fn changes_at_both_ends(rt: HostRuntime) -> Result<(), Fail> {
    let mut text = TextPieces::open(rt.alloc(), TEXT)?;
    let mut last = text.prepare(rt.alloc(), TEXT.len(), TEXT.len(), b"# end\n")?;
    assert_eq!(rt; (last.reads(), last.out().len()), (0, 0));
    text.commit(&mut last);
    assert_eq!(rt; text.len(), TEXT.len() + 6);
    let mut first = text.prepare(rt.alloc(), 0, 0, b"# top\n")?;
    assert_eq!(rt; (first.reads(), first.out().len()), (1, 1));
    text.commit(&mut first);
    let mut all = text.prepare(rt.alloc(), 0, TEXT.len() + 12, b"DESIGN e ;\nEND DESIGN\n")?;
    assert_eq!(rt; (all.reads(), all.out().len()), (2, 7));
    text.commit(&mut all);
    assert!(rt; writes(&text, b"DESIGN e ;\nEND DESIGN\n", rt.alloc()));
    Ok(())
}

#[test]
fn change_of_several_cuts(rt: HostRuntime) -> Result<(), Fail> {
    let mut text = TextPieces::open(rt.alloc(), TEXT)?;
    let cuts = [
        TextCut { lo: 48, hi: 50, put: b"a" },
        TextCut { lo: 57, hi: 57, put: b"- b INV ;\n" },
        TextCut { lo: 62, hi: 65, put: b"BUF" },
    ];
    let mut change = text.prepare_all(rt.alloc(), &cuts)?;
    assert_eq!(rt; (change.out().len(), change.put().len()), (2, 3));
    text.commit(&mut change);
    assert!(rt; writes(&text, b"VERSION 5.8 ;\nDESIGN d ;\n# two\nCOMPONENTS 2 ;\n- a INV ;\n- b INV ;\n- u2 BUF ;\nEND COMPONENTS\nEND DESIGN\n", rt.alloc()));
    let turned = [cuts[1], cuts[0]];
    assert_eq!(rt; text.prepare_all(rt.alloc(), &turned).err(), Some(PrepareError::Range));
    let none = text.prepare_all(rt.alloc(), &[])?;
    assert_eq!(rt; none.out().len(), none.put().len());
    Ok(())
}

#[test]
fn change_over_several_chunks(rt: HostRuntime) -> Result<(), Fail> {
    let bytes = long_text(rt.alloc(), 2500)?;
    let mut text = TextPieces::open(rt.alloc(), &bytes)?;
    let lo = nth(&text, 502).and_then(|id| text.offset(id)).unwrap_or(0);
    let hi = nth(&text, 2202).and_then(|id| text.offset(id)).unwrap_or(0);
    let mut change = text.prepare(rt.alloc(), lo, hi, b"- v INV ;\n")?;
    assert_eq!(rt; (change.reads(), change.out().len()), (2, 1701));
    text.commit(&mut change);
    assert_eq!(rt; text.len(), bytes.len() - (hi - lo) + 10);
    assert_eq!(rt; nth(&text, 502).and_then(|id| text.statement(id)), Some(b"- v INV ;".as_slice()));
    assert_eq!(rt; nth(&text, 503).and_then(|id| text.statement(id)), Some(b"- u2200 INV ;".as_slice()));
    let moved = nth(&text, 600);
    assert_eq!(rt; moved.and_then(|id| text.offset(id)).and_then(|it| text.find_at(it)), moved);
    text.commit(&mut change);
    assert!(rt; writes(&text, &bytes, rt.alloc()));
    Ok(())
}
