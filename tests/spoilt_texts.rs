//! Designs and a library cut short at each length, and spoilt at each byte, when they are opened and by edits of the text.

use crate::texts::{FENCE, ON_A_NET, STRAP, TWO_INVERTERS, WHOLE_LIBRARY};
use cell_library::lef_texts::LefTexts;
use cell_library::library::{Library, LibraryError};
use counted_devices::counted::Counted;
use design_model::fault::{Fault, FaultCode, ReadError};
use edit_model::edit::EditRefusal;
use edit_session::session::Session;
use std::alloc::Global;
use std::hash::RandomState;
use std::test::Fail;

/// Where the statements of the design begin and end.
const STATEMENTS: [(usize, usize); 12] = [
    (0, 13),
    (14, 31),
    (32, 50),
    (51, 63),
    (64, 93),
    (94, 125),
    (126, 167),
    (168, 182),
    (183, 193),
    (194, 225),
    (226, 240),
    (241, 251),
];

/// The lengths at which the design cut short has another fault than a statement without its end: from, up to, the fault.
const OTHER_FAULTS: [(usize, usize, FaultCode, usize); 4] = [
    (27, 29, FaultCode::OpenString, 26),
    (45, 48, FaultCode::OpenString, 44),
    (231, 240, FaultCode::NoForm, 226),
    (246, 251, FaultCode::NoForm, 241),
];

/// The fault of the first bytes of the design, if they have one.
fn fault_of(len: usize) -> Option<Fault> {
    if len >= 251 {
        return None;
    }
    for (from, end, code, pos) in OTHER_FAULTS {
        if from <= len && len < end {
            return Some(Fault { code, pos });
        }
    }
    let mut pos = len;
    for (from, end) in STATEMENTS {
        if from < len && len < end {
            pos = from;
        }
    }
    let code = FaultCode::Unfinished;
    Some(Fault { code, pos })
}

#[test]
fn a_text_cut_short_opens_or_has_its_fault(rt: HostRuntime) -> Result<(), Fail> {
    let lefs = LefTexts::new(rt.alloc());
    let library = Library::read(rt.alloc(), RandomState::new(&rt)?, &lefs)?;
    for len in 0..=TWO_INVERTERS.len() {
        let fault = match Session::open(rt.alloc(), &library, &TWO_INVERTERS[..len]) {
            Ok(session) => {
                assert_eq!(rt; session.text_len(), len);
                None
            }
            Err(error) => Some(error),
        };
        let wanted = fault_of(len).map(ReadError::Fault);
        assert_eq!(rt; fault, wanted, "{len} bytes");
    }
    Ok(())
}

#[test]
fn a_refused_byte_is_the_fault_at_each_place(rt: HostRuntime) -> Result<(), Fail> {
    let lefs = LefTexts::new(rt.alloc());
    let library = Library::read(rt.alloc(), RandomState::new(&rt)?, &lefs)?;
    for pos in 0..TWO_INVERTERS.len() {
        let mut text = TWO_INVERTERS.to_vec(rt.alloc())?;
        text[pos] = 0x7f;
        let code = FaultCode::RefusedByte;
        match Session::open(rt.alloc(), &library, &text) {
            Ok(_) => assert!(rt; false, "it was opened"),
            Err(error) => assert_eq!(rt; error, ReadError::Fault(Fault { code, pos })),
        }
    }
    Ok(())
}

/// The designs that edits of the text cut short and spoil.
const DESIGNS: [&[u8]; 4] = [TWO_INVERTERS, ON_A_NET, FENCE, STRAP];

/// The fault of a text, or none where it opens as this text.
fn fault_in(alloc: Global, library: &Library<'_>, text: &[u8]) -> Result<Option<Fault>, Fail> {
    match Session::open(alloc, library, text) {
        Ok(session) if session.text_len() == text.len() => Ok(None),
        Ok(_) => Err(Fail::from("it opened with another length")),
        Err(ReadError::Fault(fault)) => Ok(Some(fault)),
        Err(ReadError::Memory) => Err(Fail::from("memory was refused")),
    }
}

/// Whether the text of a session is this one.
fn is_text(alloc: Global, session: &Session<'_, '_>, text: &[u8]) -> Result<bool, Fail> {
    let mut out = Counted::new(Vec::new(alloc));
    session.write_to(&mut out)?;
    Ok(session.text_len() == text.len() && out.into_inner().as_slice() == text)
}

#[test]
fn a_cut_that_leaves_a_fault_is_refused_with_it(rt: HostRuntime) -> Result<(), Fail> {
    let alloc = rt.alloc();
    let mut lefs = LefTexts::new(alloc);
    lefs.push(WHOLE_LIBRARY)?;
    let library = Library::read(alloc, RandomState::new(&rt)?, &lefs)?;
    for text in DESIGNS {
        let mut session = Session::open(alloc, &library, text)?;
        let mut opened = 0;
        for len in 0..=text.len() {
            let cut = session.text_edit(len, text.len(), b"");
            match fault_in(alloc, &library, &text[..len])? {
                Some(fault) => {
                    assert!(rt; fault.pos <= len, "{len} bytes");
                    assert_eq!(rt; cut, Err(EditRefusal::Unreadable(fault)), "{len} bytes");
                }
                None => {
                    opened += 1;
                    assert!(rt; cut.is_ok(), "{len} bytes");
                    let is_cut = is_text(alloc, &session, &text[..len])?;
                    assert!(rt; is_cut, "{len} bytes");
                    assert!(rt; session.text_edit(len, len, &text[len..]).is_ok(), "{len} bytes");
                }
            }
            let is_whole = is_text(alloc, &session, text)?;
            assert!(rt; is_whole, "{len} bytes");
        }
        // (the text reads with its last line end and without it)
        assert_eq!(rt; opened, 2);
    }
    Ok(())
}

#[test]
fn a_refused_byte_is_refused_at_each_place(rt: HostRuntime) -> Result<(), Fail> {
    let alloc = rt.alloc();
    let lefs = LefTexts::new(alloc);
    let library = Library::read(alloc, RandomState::new(&rt)?, &lefs)?;
    for text in DESIGNS {
        let mut session = Session::open(alloc, &library, text)?;
        for pos in 0..text.len() {
            let fault = Fault {
                code: FaultCode::RefusedByte,
                pos,
            };
            let mut spoilt = text.to_vec(alloc)?;
            spoilt[pos] = 0x7f;
            assert_eq!(rt; fault_in(alloc, &library, &spoilt)?, Some(fault));
            let put = session.text_edit(pos, pos + 1, b"\x7f");
            assert_eq!(rt; put, Err(EditRefusal::Unreadable(fault)));
        }
        let is_whole = is_text(alloc, &session, text)?;
        assert!(rt; is_whole);
    }
    Ok(())
}

/// The fault of a library of one text, or none where it reads.
fn fault_of_lef(alloc: Global, hash_builder: RandomState, text: &[u8]) -> Result<Option<Fault>, Fail> {
    let mut lefs = LefTexts::new(alloc);
    lefs.push(text)?;
    match Library::read(alloc, hash_builder, &lefs) {
        Ok(_) => Ok(None),
        Err(LibraryError::Fault { file: 1, fault }) => Ok(Some(fault)),
        Err(LibraryError::Fault { .. }) => Err(Fail::from("the fault of another text")),
        Err(LibraryError::Memory) => Err(Fail::from("memory was refused")),
    }
}

/// At how many lengths the library reads: none, and behind each of its nine statements and blocks, without the line end and with it.
const READ_LENGTHS: usize = 19;

#[test]
fn a_library_cut_short_reads_or_has_one_fault(rt: HostRuntime) -> Result<(), Fail> {
    let hash_builder = RandomState::new(&rt)?;
    let mut read = 0;
    for len in 0..=WHOLE_LIBRARY.len() {
        match fault_of_lef(rt.alloc(), hash_builder, &WHOLE_LIBRARY[..len])? {
            Some(fault) => assert!(rt; fault.pos <= len, "{len} bytes"),
            None => read += 1,
        }
    }
    assert_eq!(rt; read, READ_LENGTHS);
    Ok(())
}

#[test]
fn a_refused_byte_is_the_fault_at_each_place_of_a_library(rt: HostRuntime) -> Result<(), Fail> {
    let hash_builder = RandomState::new(&rt)?;
    for pos in 0..WHOLE_LIBRARY.len() {
        let mut text = WHOLE_LIBRARY.to_vec(rt.alloc())?;
        text[pos] = 0x7f;
        let fault = Fault {
            code: FaultCode::RefusedByte,
            pos,
        };
        assert_eq!(rt; fault_of_lef(rt.alloc(), hash_builder, &text)?, Some(fault));
    }
    Ok(())
}
