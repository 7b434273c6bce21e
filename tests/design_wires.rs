//! The pieces of the wires of designs, from a LEF and a DEF text: by the widths, the rules and the vias that these define.

use crate::entry_names::records_of;
use crate::piece_lines::add_line;
use crate::texts::METALS;
use cell_library::lef_texts::LefTexts;
use cell_library::library::Library;
use def_reader::entry::Entry;
use def_reader::statement::Statement;
use design_names::names::names_of;
use design_wires::makings_of_design::DesignMakings;
use design_wires::wires::DesignWires;
use std::alloc::{AllocError, Global};
use std::hash::RandomState;
use std::test::Fail;
use wire_parts::nets::{NetEntry, NetParts};
use wire_parts::special_nets::SpecialNetParts;
use wire_reading::{net_pieces, special_net_pieces};
use wire_shapes::Piece;

/// Adds the lines of a net: its name, and its pieces.
fn add_net(
    list: &mut Vec<u8>,
    alloc: Global,
    parts: &NetParts<'_>,
    rules: DesignMakings<'_, '_, '_, '_, '_>,
) -> Result<(), AllocError> {
    list.extend_from_slice(parts.name.bytes)?;
    list.push(b'\n')?;
    for piece in net_pieces(parts, rules) {
        add_line(list, alloc, piece)?;
    }
    Ok(())
}

/// Adds the lines of a special net.
fn add_special_net(
    list: &mut Vec<u8>,
    alloc: Global,
    parts: &SpecialNetParts<'_>,
    rules: DesignMakings<'_, '_, '_, '_, '_>,
) -> Result<(), AllocError> {
    list.extend_from_slice(parts.name.bytes)?;
    list.push(b'\n')?;
    for piece in special_net_pieces(parts, rules) {
        add_line(list, alloc, piece)?;
    }
    Ok(())
}

/// The lines of all nets among statements.
fn lines_of(
    alloc: Global,
    records: &[Statement<'_>],
    rules: DesignMakings<'_, '_, '_, '_, '_>,
) -> Result<Vec<u8>, AllocError> {
    let mut list = Vec::new(alloc);
    for statement in records {
        if let Statement::Entry(entry) = statement {
            match entry {
                Entry::Net(NetEntry::Net(parts)) => add_net(&mut list, alloc, parts, rules)?,
                Entry::SpecialNet(parts) => add_special_net(&mut list, alloc, parts, rules)?,
                _ => {}
            }
        }
    }
    Ok(list)
}

/// The lines of all nets among the statements of a design, by the two metals and another LEF text.
fn lines_in(
    alloc: Global,
    hash_builder: RandomState,
    lef: &[u8],
    records: &[Statement<'_>],
) -> Result<Vec<u8>, Fail> {
    let mut lefs = LefTexts::new(alloc);
    lefs.push(METALS)?;
    lefs.push(lef)?;
    let library = Library::read(alloc, hash_builder, &lefs)?;
    let names = names_of(alloc, hash_builder, records)?;
    let wires = DesignWires::new(alloc, &library, &names)?;
    Ok(lines_of(alloc, records, DesignMakings { wires: &wires })?)
}

/// The same of a DEF text.
fn lines_by(
    alloc: Global,
    hash_builder: RandomState,
    lef: &[u8],
    def: &[u8],
) -> Result<Vec<u8>, Fail> {
    let records = records_of(alloc, hash_builder, def)?;
    lines_in(alloc, hash_builder, lef, &records)
}

#[test]
fn wires_of_nets(rt: HostRuntime) -> Result<(), Fail> {
    let def = b"UNITS DISTANCE MICRONS 1000 ;
NETS 4 ;
- plain + ROUTED met1 ( 0 0 ) ( 1000 * ) ;
- cut_short + ROUTED met1 ( 0 0 ) ( 1000 * 0 ) ;
- through + ROUTED met1 ( 0 0 ) ( 1000 * ) M1M2 ( * 500 ) NEW met1 ( 0 900 ) ( 100 * ) ;
- without_length + NOSHIELD met1 ( 0 0 10 ) ( 0 0 30 ) NEW met2 ( 5 5 30 ) ( 5 5 10 ) ;
END NETS
END DESIGN
";
    let wanted = b"plain
segment met1 -70 -70 1070 70 1000
cut_short
segment met1 -70 -70 1000 70 1000
through
segment met1 -70 -70 1070 70 1000
via M1M2 1000 0 met1 900 -100 1100 100
via M1M2 1000 0 via1 950 -50 1050 50
via M1M2 1000 0 met2 900 -100 1100 100
segment met2 930 -70 1070 570 500
segment met1 -70 830 170 970 100
without_length
segment met1 -10 -70 30 70 0
segment met2 -25 -65 15 75 0
";
    let lines = lines_by(rt.alloc(), RandomState::new(&rt)?, b"", def)?;
    assert_eq!(rt; lines.as_slice(), wanted.as_slice());
    Ok(())
}

/// A layer whose wires are 4 microns wide.
const WIDE: &[u8] = b"LAYER top\n  TYPE ROUTING ;\n  WIDTH 4 ;\nEND top\n";

#[test]
fn a_micron_has_the_units_of_the_design(rt: HostRuntime) -> Result<(), Fail> {
    let def = b"UNITS DISTANCE MICRONS 2000 ;
NETS 1 ;
- n + ROUTED top ( 0 0 ) ( 1000 * ) ;
END NETS
END DESIGN
";
    let hash_builder = RandomState::new(&rt)?;
    let records = records_of(rt.alloc(), hash_builder, def)?;
    let at_2000 = lines_in(rt.alloc(), hash_builder, WIDE, &records)?;
    assert_eq!(rt; at_2000.as_slice(), b"n\nsegment top -4000 -4000 5000 4000 1000\n".as_slice());
    // (its first statement is UNITS, and without that a micron has one)
    let at_1 = lines_in(rt.alloc(), hash_builder, WIDE, &records[1..])?;
    assert_eq!(rt; at_1.as_slice(), b"n\nsegment top -2 -2 1002 2 1000\n".as_slice());
    Ok(())
}

#[test]
fn wires_at_2000_units_in_a_micron(rt: HostRuntime) -> Result<(), Fail> {
    let def = b"UNITS DISTANCE MICRONS 2000 ;
NETS 1 ;
- n + ROUTED met1 ( 0 0 ) ( 1000 * ) M1M2 ( * 500 ) ;
END NETS
END DESIGN
";
    let wanted = b"n
segment met1 -140 -140 1140 140 1000
via M1M2 1000 0 met1 800 -200 1200 200
via M1M2 1000 0 via1 900 -100 1100 100
via M1M2 1000 0 met2 800 -200 1200 200
segment met2 860 -140 1140 640 500
";
    let lines = lines_by(rt.alloc(), RandomState::new(&rt)?, b"", def)?;
    assert_eq!(rt; lines.as_slice(), wanted.as_slice());
    Ok(())
}

#[test]
fn wires_of_special_nets(rt: HostRuntime) -> Result<(), Fail> {
    let def = b"UNITS DISTANCE MICRONS 1000 ;
SPECIALNETS 1 ;
- P + ROUTED met1 10 ( 50 55 ) ( 150 * )
NEW met1 11 ( 0 0 ) ( 0 100 7 ) M1M2 ( -40 * ) RECT ( 2 3 -1 -4 )
NEW met9 10 ( 0 0 ) ( 100 * )
+ FIXED met2 20 ( 5 5 ) ( 5 5 ) VIRTUAL ( 10 * ) ( * 30 ) ( 11 31 ) ( 12 * )
+ COVER + SHIELD P met1 0 ( 0 0 3 ) ( 0 -10 4 ) ;
END SPECIALNETS
END DESIGN
";
    let wanted = b"P
segment met1 50 50 150 60 100
segment met1 -5 0 6 107 100
via M1M2 0 100 met1 -100 0 100 200
via M1M2 0 100 via1 -50 50 50 150
via M1M2 0 100 met2 -100 0 100 200
segment met2 -40 95 7 106 40
rectangle met2 -41 96 -38 103
segment met9 0 -5 100 5 100
segment met2 5 -5 5 15 0
segment met2 0 5 20 30 25
diagonal
segment met2 11 21 12 41 1
segment met1 0 -14 0 3 10
";
    let lines = lines_by(rt.alloc(), RandomState::new(&rt)?, b"", def)?;
    assert_eq!(rt; lines.as_slice(), wanted.as_slice());
    Ok(())
}

/// Rules of LEF: one for both metals, one that the design defines too, one without a width, and one of an odd width.
const RULES: &[u8] = b"NONDEFAULTRULE of_lef LAYER met1 WIDTH 0.28 ; END met1 LAYER met2 WIDTH 0.3 ; END met2 END of_lef
NONDEFAULTRULE of_both LAYER met1 WIDTH 0.5 ; END met1 LAYER met2 WIDTH 0.5 ; END met2 END of_both
NONDEFAULTRULE bare LAYER met1 END met1 END bare
NONDEFAULTRULE odd LAYER met1 WIDTH 0.141 ; END met1 LAYER met1 WIDTH 1 ; END met1 END odd
";

#[test]
fn widths_by_rules(rt: HostRuntime) -> Result<(), Fail> {
    let def = b"UNITS DISTANCE MICRONS 1000 ;
NONDEFAULTRULES 1 ;
- of_both + LAYER met1 WIDTH 400 SPACING 5 + LAYER met1 WIDTH 2 ;
END NONDEFAULTRULES
NETS 5 ;
- a + NONDEFAULTRULE of_lef + ROUTED met1 ( 0 0 ) ( 1000 * ) M1M2 ( * 500 )
NEW met1 TAPER ( 0 0 ) ( 1000 * ) NEW met1 TAPERRULE of_both ( 0 0 ) ( 1000 * ) ;
- b + COVER met1 ( 0 0 ) ( 1000 * ) NEW met2 ( 0 0 ) ( * 1000 ) + NONDEFAULTRULE of_both + NONDEFAULTRULE odd ;
- c + NONDEFAULTRULE bare + ROUTED met1 ( 0 0 ) ( 1000 * ) ;
- d + NONDEFAULTRULE nowhere + ROUTED met1 ( 0 0 ) ( 1000 * ) NEW via1 ( 0 0 ) ( * 10 ) ;
- e + NONDEFAULTRULE odd + ROUTED met1 ( 0 0 ) ( 1000 * ) ;
END NETS
END DESIGN
";
    let wanted = b"a
segment met1 -140 -140 1140 140 1000
via M1M2 1000 0 met1 900 -100 1100 100
via M1M2 1000 0 via1 950 -50 1050 50
via M1M2 1000 0 met2 900 -100 1100 100
segment met2 850 -150 1150 650 500
segment met1 -70 -70 1070 70 1000
segment met1 -200 -200 1200 200 1000
b
segment met1 -200 -200 1200 200 1000
segment met2 -70 -70 70 1070 1000
c
segment met1 -70 -70 1070 70 1000
d
segment met1 -70 -70 1070 70 1000
segment via1 0 0 0 10 10
e
segment met1 -70 -70 1070 71 1000
";
    let lines = lines_by(rt.alloc(), RandomState::new(&rt)?, RULES, def)?;
    assert_eq!(rt; lines.as_slice(), wanted.as_slice());
    Ok(())
}

#[test]
fn generated_vias_of_def(rt: HostRuntime) -> Result<(), Fail> {
    let def = b"UNITS DISTANCE MICRONS 1000 ;
VIAS 7 ;
- array + VIARULE r + CUTSIZE 150 150 + LAYERS met1 via1 met2 + CUTSPACING 170 170 + ENCLOSURE 85 55 55 85 + ROWCOL 2 3 ;
- below + VIARULE r + CUTSIZE 150 150 + LAYERS met1 via1 met2 + CUTSPACING 170 170 + ENCLOSURE 85 55 55 85 + ROWCOL 2 3
+ OFFSET 10 20 0 0 ;
- above + OFFSET 0 0 -10 -20 + VIARULE r + CUTSIZE 150 150 + LAYERS met1 via1 met2 + CUTSPACING 170 170
+ ENCLOSURE 85 55 55 85 + ROWCOL 2 3 + ORIGIN 100 200 + OFFSET 1 1 1 1 ;
- single + VIARULE r + CUTSIZE 5 7 + LAYERS met1 via1 met2 + CUTSPACING 0 0 + ENCLOSURE 0 0 1 2 ;
- crossed + VIARULE r + CUTSIZE 150 150 + LAYERS met1 via1 met2 + CUTSPACING 0 0 + ENCLOSURE -100 0 0 -75 ;
- by_rule + VIARULE r + CUTSIZE 5 7 + LAYERS met1 via1 met2 + CUTSPACING 0 0 + ENCLOSURE 0 0 0 0 + RECT met1 ( 0 0 ) ( 9 9 ) ;
- half_said + VIARULE r + CUTSIZE 5 7 + LAYERS met1 via1 met2 + ENCLOSURE 0 0 0 0 ;
END VIAS
NETS 1 ;
- n + ROUTED met1 ( 0 0 ) array NEW met1 ( 0 0 ) below NEW met1 ( 0 0 ) above NEW met1 ( 0 0 ) single
NEW met1 ( 0 0 ) crossed NEW met1 ( 0 0 ) by_rule NEW met1 ( 0 0 ) half_said ( * 100 ) ;
END NETS
END DESIGN
";
    let wanted = b"n
via array 0 0 met1 -480 -290 480 290
via array 0 0 via1 -395 -235 395 235
via array 0 0 met2 -450 -320 450 320
via below 0 0 met1 -470 -270 490 310
via below 0 0 via1 -395 -235 395 235
via below 0 0 met2 -450 -320 450 320
via above 0 0 met1 -380 -90 580 490
via above 0 0 via1 -295 -35 495 435
via above 0 0 met2 -360 -140 540 500
via single 0 0 met1 -2 -3 3 4
via single 0 0 via1 -2 -3 3 4
via single 0 0 met2 -3 -5 4 6
via crossed 0 0 met1 -25 -75 25 75
via crossed 0 0 via1 -75 -75 75 75
via crossed 0 0 met2 -75 0 75 0
via by_rule 0 0 met1 -2 -3 3 4
via by_rule 0 0 via1 -2 -3 3 4
via by_rule 0 0 met2 -2 -3 3 4
segment met2 -70 -70 70 170 100
";
    let lines = lines_by(rt.alloc(), RandomState::new(&rt)?, b"", def)?;
    assert_eq!(rt; lines.as_slice(), wanted.as_slice());
    Ok(())
}

/// Vias of LEF that a rule generates. Numbers become units one by one: 0.0005 is 1 and -0.0005 is -1 of 1000 to a micron.
const GENERATED: &[u8] = b"VIA array GENERATED VIARULE r ; CUTSIZE 0.15 0.15 ; LAYERS met1 via1 met2 ; CUTSPACING 0.17 0.17 ;
ENCLOSURE 0.085 0.055 0.055 0.085 ; ROWCOL 2 3 ; OFFSET 0.01 0.02 0 0 ; ORIGIN 0.0005 -0.0005 ; ORIGIN 1 1 ; END array
VIA half_said VIARULE r ; CUTSIZE 0.15 0.15 ; LAYERS met1 via1 met2 ; CUTSPACING 0.17 0.17 ; END half_said
VIA without_layers VIARULE r ; CUTSIZE 0.15 0.15 ; CUTSPACING 0.17 0.17 ; ENCLOSURE 0 0 0 0 ;
LAYER met1 ; RECT 0 0 1 1 ; LAYER met2 ; RECT 0 0 1 1 ; END without_layers
VIA above VIARULE r ; CUTSIZE 0.005 0.007 ; LAYERS met1 via1 met2 ; CUTSPACING 0 0 ; ENCLOSURE 0 0 0 0 ;
OFFSET 0 0 0.01 0.02 ; END above
";

#[test]
fn generated_vias_of_lef(rt: HostRuntime) -> Result<(), Fail> {
    let def = b"UNITS DISTANCE MICRONS 1000 ;
NETS 4 ;
- a + ROUTED met1 ( 0 0 ) array ;
- b + ROUTED met1 ( 0 0 ) half_said ( * 100 ) ;
- c + ROUTED met1 ( 0 0 ) without_layers ( * 100 ) ;
- d + ROUTED met2 ( 0 0 ) above above ;
END NETS
END DESIGN
";
    let wanted = b"a
via array 0 0 met1 -469 -271 491 309
via array 0 0 via1 -394 -236 396 234
via array 0 0 met2 -449 -321 451 319
b
segment met2 -70 -70 70 170 100
c
stays without_layers
segment met1 -70 -70 70 170 100
d
via above 0 0 met1 -2 -3 3 4
via above 0 0 via1 -2 -3 3 4
via above 0 0 met2 8 17 13 24
via above 0 0 met1 -2 -3 3 4
via above 0 0 via1 -2 -3 3 4
via above 0 0 met2 8 17 13 24
";
    let lines = lines_by(rt.alloc(), RandomState::new(&rt)?, GENERATED, def)?;
    assert_eq!(rt; lines.as_slice(), wanted.as_slice());
    Ok(())
}

#[test]
fn listed_vias(rt: HostRuntime) -> Result<(), Fail> {
    let def = b"UNITS DISTANCE MICRONS 1000 ;
VIAS 3 ;
- star + RECT met1 ( -10 -20 ) ( * 30 ) + RECT via1 + MASK 1 ( -10 -20 ) ( 40 * ) + RECT met2 ( 40 30 ) ( -10 -20 ) ;
- side + RECT met1 ( 50 60 ) ( 90 100 ) + POLYGON met2 ( 0 0 ) ( 1 0 ) ( 1 1 ) ;
- M1M2 + RECT met2 ( 0 0 ) ( 1 1 ) ;
END VIAS
NETS 4 ;
- stars + ROUTED met1 ( 0 0 ) star ;
- turned + ROUTED met1 ( 1000 2000 ) side FW side W side E side S side FN side FS side FE side N ;
- of_def + ROUTED met1 ( 0 0 ) M1M2 ( 100 * ) ;
- unknown + ROUTED met1 ( 0 0 ) nowhere ( 100 * ) ;
END NETS
END DESIGN
";
    let wanted = b"stars
via star 0 0 met1 -10 -20 -10 30
via star 0 0 via1 -10 -20 40 -20
via star 0 0 met2 -10 -20 40 30
turned
via side 1000 2000 met1 1060 2050 1100 2090
via side 1000 2000 met1 900 2050 940 2090
via side 1000 2000 met1 1060 1910 1100 1950
via side 1000 2000 met1 910 1900 950 1940
via side 1000 2000 met1 910 2060 950 2100
via side 1000 2000 met1 1050 1900 1090 1940
via side 1000 2000 met1 900 1910 940 1950
via side 1000 2000 met1 1050 2060 1090 2100
of_def
via M1M2 0 0 met2 0 0 1 1
stays M1M2
segment met1 -70 -70 170 70 100
unknown
unknown nowhere
segment met1 -70 -70 170 70 100
";
    let lines = lines_by(rt.alloc(), RandomState::new(&rt)?, b"", def)?;
    assert_eq!(rt; lines.as_slice(), wanted.as_slice());
    Ok(())
}

/// How many shapes of vias there are, and the sums of their left and of their lower ends.
#[derive(Clone, Copy, Debug, PartialEq, Eq)]
struct Sums {
    shapes: u64,
    left: i64,
    lower: i64,
}

/// These sums, and the pieces of a special net.
fn with_special_net(
    sums: Sums,
    parts: &SpecialNetParts<'_>,
    rules: DesignMakings<'_, '_, '_, '_, '_>,
) -> Sums {
    let mut sums = sums;
    for piece in special_net_pieces(parts, rules) {
        if let Piece::ViaShape { shape, .. } = piece {
            sums.shapes += 1;
            sums.left += shape.rect.x1;
            sums.lower += shape.rect.y1;
        }
    }
    sums
}

/// The sums of the special nets of a design by the two metals.
fn sums_by(alloc: Global, hash_builder: RandomState, def: &[u8]) -> Result<Sums, Fail> {
    let mut lefs = LefTexts::new(alloc);
    lefs.push(METALS)?;
    let library = Library::read(alloc, hash_builder, &lefs)?;
    let records = records_of(alloc, hash_builder, def)?;
    let names = names_of(alloc, hash_builder, &records)?;
    let wires = DesignWires::new(alloc, &library, &names)?;
    let mut sums = Sums {
        shapes: 0,
        left: 0,
        lower: 0,
    };
    for statement in &records {
        if let Statement::Entry(Entry::SpecialNet(parts)) = statement {
            sums = with_special_net(sums, parts, DesignMakings { wires: &wires });
        }
    }
    Ok(sums)
}

#[test]
fn an_array_of_70000_vias(rt: HostRuntime) -> Result<(), Fail> {
    let def = b"UNITS DISTANCE MICRONS 1000 ;
VIAS 1 ;
- dot + RECT met1 ( 1 2 ) ( 3 4 ) ;
END VIAS
SPECIALNETS 1 ;
- P + ROUTED met1 0 ( 0 0 ) dot DO 700 BY 100 STEP 10 20 ;
END SPECIALNETS
END DESIGN
";
    // (each of 700 columns 100 times, and each of 100 rows 700 times)
    let wanted = Sums {
        shapes: 70000,
        left: 70000 + 100 * 10 * (699 * 700 / 2),
        lower: 2 * 70000 + 700 * 20 * (99 * 100 / 2),
    };
    let sums = sums_by(rt.alloc(), RandomState::new(&rt)?, def)?;
    assert_eq!(rt; sums, wanted);
    Ok(())
}

#[test]
fn a_table_of_70000_vias(rt: HostRuntime) -> Result<(), Fail> {
    let alloc = rt.alloc();
    let mut def = Vec::new(alloc);
    def.extend_from_slice(b"UNITS DISTANCE MICRONS 1000 ;\nVIAS 70000 ;\n")?;
    for k in 0..70000 {
        let via = format!(in alloc; "- v{k} + RECT met1 ( 0 0 ) ( {k} 1 ) ;\n")?;
        def.extend_from_slice(via.as_bytes())?;
    }
    def.extend_from_slice(
        b"END VIAS\nNETS 1 ;\n- n + ROUTED met1 ( 0 0 ) v69999 ;\nEND NETS\nEND DESIGN\n",
    )?;
    let lines = lines_by(alloc, RandomState::new(&rt)?, b"", def.as_slice())?;
    let wanted = b"n\nvia v69999 0 0 met1 0 0 69999 1\nstays v69999\n".as_slice();
    assert_eq!(rt; lines.as_slice(), wanted);
    Ok(())
}
