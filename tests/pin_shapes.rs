//! Where the rectangles of pins lie: of a component that is turned, and of a pin of the design.

use crate::entry_names::records_of;
use cell_library::lef_texts::LefTexts;
use cell_library::library::Library;
use def_reader::entry::Entry;
use design_model::geometry::{Orient, Point, Rect};
use design_model::mode::Section;
use design_names::names::names_of;
use orient_geom::{pin_rect, place_rect, span};
use place_parts::pins::{PinClause, PinParts};
use std::alloc::Global;
use std::hash::RandomState;
use std::test::Fail;

/// A macro of 100 by 200 units with a rectangle of a pin from (10, 20) to (30, 50), where its origin is.
const BLOCK: &[u8] = b"LAYER met1 TYPE ROUTING ; END met1
MACRO BLOCK ORIGIN 0.004 0.01 ; SIZE 0.1 BY 0.2 ;
PIN P PORT LAYER met1 ; RECT 0.026 0.01 0.006 0.04 ; END END P
END BLOCK";

/// The rectangle of the pin of a component with this orientation, at a point.
fn placed_pin(
    alloc: Global,
    hash_builder: RandomState,
    orient: Orient,
    at: Point,
) -> Result<Rect, Fail> {
    let mut lefs = LefTexts::new(alloc);
    lefs.push(BLOCK)?;
    let library = Library::read(alloc, hash_builder, &lefs)?;
    let cell = library.macro_of(b"BLOCK").ok_or("no BLOCK")?;
    let boundary = span(Point { x: 0, y: 0 }, cell.size(1000));
    let mut shapes = cell.shapes(1000);
    let shape = shapes.next().ok_or("no shape")?;
    Ok(place_rect(orient, boundary, at, shape.rect))
}

#[test]
fn a_pin_of_a_component(rt: HostRuntime) -> Result<(), Fail> {
    let far = Point { x: 1000, y: 2000 };
    let zero = Point { x: 0, y: 0 };
    let hash_builder = RandomState::new(&rt)?;
    let flipped = placed_pin(rt.alloc(), hash_builder, Orient::FW, far)?;
    let turned = placed_pin(rt.alloc(), hash_builder, Orient::W, zero)?;
    let plain = placed_pin(rt.alloc(), hash_builder, Orient::N, far)?;
    assert_eq!(rt; (flipped.x1, flipped.y1, flipped.x2, flipped.y2), (1020, 2010, 1050, 2030));
    assert_eq!(rt; (turned.x1, turned.y1, turned.x2, turned.y2), (150, 10, 180, 30));
    assert_eq!(rt; (plain.x1, plain.y1, plain.x2, plain.y2), (1010, 2020, 1030, 2050));
    Ok(())
}

const PINS: &[u8] = b"UNITS DISTANCE MICRONS 1000 ;
PINS 2 ;
- flipped + LAYER met1 ( 10 20 ) ( 30 50 ) + PLACED ( 1000 2000 ) FW ;
- turned + LAYER met1 ( 30 20 ) ( 10 50 ) + FIXED ( 0 0 ) W ;
END PINS
END DESIGN
";

/// The rectangle of a pin of one rectangle, where it is placed.
fn rect_of(parts: &PinParts<'_>) -> Option<Rect> {
    let mut rect = None;
    let mut left = parts.clauses.again();
    while let Some(clause) = left.next() {
        match clause {
            PinClause::Rectangle(found) => {
                let first = found.corners.first;
                rect = Some(span(first.place(), found.corners.second.after(first).place()));
            }
            PinClause::Placed(place) => return Some(pin_rect(place.orient, place.at.place(), rect?)),
            _ => {}
        }
    }
    None
}

#[test]
fn a_pin_of_the_design(rt: HostRuntime) -> Result<(), Fail> {
    let hash_builder = RandomState::new(&rt)?;
    let records = records_of(rt.alloc(), hash_builder, PINS)?;
    let names = names_of(rt.alloc(), hash_builder, &records)?;
    let rows: [(&[u8], (i64, i64, i64, i64)); 2] = [
        (b"flipped", (1020, 2010, 1050, 2030)),
        (b"turned", (-50, 10, -20, 30)),
    ];
    for (name, want) in rows {
        let Some(Entry::Pin(parts)) = names.entry(Section::Pins, name) else {
            return Err("no pin")?;
        };
        let rect = rect_of(parts).ok_or("no rectangle")?;
        assert_eq!(rt; (rect.x1, rect.y1, rect.x2, rect.y2), want);
    }
    Ok(())
}
