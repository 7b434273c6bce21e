//! The entries of a design by their names, each call once.

use def_reader::read_def::read_def;
use def_reader::records::statements_of;
use def_reader::statement::Statement;
use design_model::mode::Section;
use design_names::names::names_of;
use std::alloc::Allocator;
use std::hash::RandomState;
use std::test::Fail;

const DEF: &[u8] = b"VERSION 5.8 ; DESIGN d ; UNITS DISTANCE MICRONS 1000 ;
ROW r1 core 0 0 N ;
VIAS 1 ; - v1 + RECT met1 ( 0 0 ) ( 1 1 ) ; END VIAS
NONDEFAULTRULES 1 ; - wide + LAYER met1 WIDTH 5 ; END NONDEFAULTRULES
COMPONENTS 3 ; - u1 INV ; - u2 GONE ; - u3 INV + REGION far ; END COMPONENTS
NETS 1 ; - n1 ( u1 A ) ( u1 Q ) ( u9 A ) ( u2 Q ) ( PIN p ) + NONDEFAULTRULE wide
+ ROUTED met1 ( 0 0 ) ( 10 0 ) v1 NEW met2 ( 0 0 ) ( 10 0 ) v9 ; END NETS
END DESIGN
";

/// The statements of a text that reads.
pub fn records_of<'t, A: Allocator + Copy>(
    alloc: A,
    hash_builder: RandomState,
    text: &'t [u8],
) -> Result<Vec<Statement<'t>, A>, &'static str> {
    match read_def(alloc, hash_builder, text) {
        Ok(_) => match statements_of(alloc, text) {
            Ok(records) => Ok(records),
            Err(_) => Err("no memory"),
        },
        Err(_) => Err("no DEF"),
    }
}

#[test]
fn entries_are_found_by_their_names(rt: HostRuntime) -> Result<(), Fail> {
    let hash_builder = RandomState::new(&rt)?;
    let records = records_of(rt.alloc(), hash_builder, DEF)?;
    let names = names_of(rt.alloc(), hash_builder, &records)?;
    assert_eq!(rt; names.records().len(), records.len());
    let net = names.entry(Section::Nets, b"n1").ok_or("no n1")?;
    assert_eq!(rt; net.section(), Section::Nets);
    assert!(rt; names.entry(Section::SpecialNets, b"n1").is_none());
    assert!(rt; names.has(Section::Components, b"u3"));
    assert!(rt; !names.has(Section::Components, b"u4"));
    let component = names.component(b"u2").ok_or("no u2")?;
    assert_eq!(rt; component.cell.bytes, b"GONE".as_slice());
    assert!(rt; names.component(b"n1").is_none());
    assert!(rt; names.via(b"v1").is_some());
    assert!(rt; names.via(b"wide").is_none());
    assert!(rt; names.rule(b"wide").is_some());
    assert!(rt; names.rule(b"v1").is_none());
    Ok(())
}
