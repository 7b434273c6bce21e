//! What a library tells of a macro: the shapes of its pins, its sites and its pins.

use cell_library::lef_texts::LefTexts;
use cell_library::library::Library;
use cell_library::macro_view::MacroView;
use std::hash::RandomState;
use std::test::Fail;

/// An inverter whose pin A has a rectangle on a layer that isn't defined, and then one on `met1`.
const INVERTER: &[u8] = b"LAYER met1 TYPE ROUTING ; END met1 LAYER met2 TYPE ROUTING ; END met2
MACRO INV CLASS CORE SPACER ; ORIGIN 0.1 0 ; SIZE 0.92 BY 2.72 ; SITE core ; SITE wide ;
PIN A PORT LAYER met9 ; RECT 0 0 1 1 ; LAYER met1 ; RECT 0.1 1 0.3 1.2 ; END END A
PIN Y PORT LAYER met2 ; RECT 0.8 1.2 0.6 1 ; END END Y
END INV";

/// How many shapes a macro has, and the sums of their layers' places and of their left ends, of 2000 units in a micron.
fn sums(cell: MacroView<'_, '_>) -> (u64, usize, i64) {
    let mut count = 0u64;
    let mut layers = 0usize;
    let mut left = 0i64;
    for shape in cell.shapes(2000) {
        count += 1;
        layers += shape.layer.0;
        left += shape.rect.x1;
    }
    (count, layers, left)
}

/// How many sites and pins a macro has, and whether one of them is called Y.
fn counts(cell: MacroView<'_, '_>) -> (usize, usize, bool) {
    (
        cell.sites().len(),
        cell.pins().len(),
        cell.pin(b"Y").is_some(),
    )
}

#[test]
fn shapes_of_pins(rt: HostRuntime) -> Result<(), Fail> {
    let mut texts = LefTexts::new(rt.alloc());
    texts.push(INVERTER)?;
    let library = Library::read(rt.alloc(), RandomState::new(&rt)?, &texts)?;
    let cell = library.macro_of(b"INV").ok_or("no INV")?;
    assert_eq!(rt; sums(cell), (2, 1, 400 + 1400));
    Ok(())
}

#[test]
fn sites_and_pins(rt: HostRuntime) -> Result<(), Fail> {
    let mut texts = LefTexts::new(rt.alloc());
    texts.push(INVERTER)?;
    let library = Library::read(rt.alloc(), RandomState::new(&rt)?, &texts)?;
    let cell = library.macro_of(b"INV").ok_or("no INV")?;
    assert_eq!(rt; counts(cell), (2, 2, true));
    Ok(())
}
