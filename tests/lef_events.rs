//! The statements of LEF texts one at a time, by `LefEvents`, and a fault that comes again.

use design_model::fault::{Fault, FaultCode};
use lef_reader::events::LefEvents;
use lef_reader::outermost::{NamedHeader, OutermostStatement};
use lef_reader::statement::LefStatement;

/// How many statements a text has, or its fault. No text here has a hundred.
fn count(text: &[u8]) -> Result<usize, Fault> {
    let mut events = LefEvents::new(text);
    for count in 0..100 {
        if events.next()?.is_none() {
            return Ok(count);
        }
    }
    Ok(100)
}

fn at(code: FaultCode, pos: usize) -> Result<usize, Fault> {
    Err(Fault { code, pos })
}

#[test]
fn texts(rt: HostRuntime) {
    let rows: [(&[u8], Result<usize, Fault>); 17] = [
        (b"", Ok(0)),
        (
            b"UNITS DATABASE MICRONS 1000 ; END UNITS LAYER met1 TYPE ROUTING ; WIDTH 0.14 ; END met1 END LIBRARY",
            Ok(8),
        ),
        (
            b"VIA M1M2 DEFAULT LAYER met1 ; RECT -0.1 -0.1 0.1 0.1 ; END M1M2",
            Ok(5),
        ),
        (
            b"MACRO INV ORIGIN 0 0 ; SIZE 0.92 BY 2.72 ; PIN A PORT LAYER met1 ; RECT 0.1 1 0.3 1.2 ; END END A OBS RECT x ; END END INV",
            Ok(13),
        ),
        (b"BEGINEXT \"tag\" END x ENDEXT VERSION 5.8 ;", Ok(6)),
        (b"BEGINEXT x ;\n", at(FaultCode::Unfinished, 13)),
        (b"LAYER m\n", at(FaultCode::Unfinished, 8)),
        (b"MACRO m SIZE 1 BY -1 ; END m", at(FaultCode::Number, 18)),
        (b"VIA v RECT 0 0 1 1 ; END v", at(FaultCode::NoForm, 6)),
        (b"VIA ; DEFAULT", at(FaultCode::NoForm, 0)),
        (b"VIA v \x7f", at(FaultCode::RefusedByte, 6)),
        (b"VIA ; DEFAULT # \x7f", at(FaultCode::RefusedByte, 16)),
        (b"VIA ; LAYER \x7f", at(FaultCode::NoForm, 0)),
        (b"VIARULE ( GENERATE \"x", at(FaultCode::OpenString, 19)),
        (b"VIARULE ( GENERATE GENERATE \x7f", at(FaultCode::NoForm, 0)),
        (b"VIA v VIARULE ; \x7f", at(FaultCode::NoForm, 6)),
        (b"VIA v \"x", at(FaultCode::OpenString, 6)),
    ];
    for (text, want) in rows {
        assert_eq!(rt; count(text), want);
    }
}

#[test]
fn fault_for_good(rt: HostRuntime) {
    let mut events = LefEvents::new(b"LAYER m TYPE ;");
    let header = events.next();
    assert!(rt;
        matches!(header, Ok(Some(LefStatement::Outside(OutermostStatement::Named(NamedHeader::Layer(name))))) if name.bytes == b"m".as_slice())
    );
    let fault = Fault {
        code: FaultCode::NoForm,
        pos: 8,
    };
    assert!(rt; matches!(events.next(), Err(found) if found == fault));
    assert!(rt; matches!(events.next(), Err(found) if found == fault));
}
