//! Pieces of wires as lines of text.

use std::alloc::{AllocError, Global};
use wire_shapes::{LayerShape, Piece};

/// Adds ` layer x1 y1 x2 y2`.
fn add_shape(list: &mut Vec<u8>, alloc: Global, shape: LayerShape<'_>) -> Result<(), AllocError> {
    list.push(b' ')?;
    list.extend_from_slice(shape.layer)?;
    let rect = shape.rect;
    let numbers = format!(in alloc; " {} {} {} {}", rect.x1, rect.y1, rect.x2, rect.y2)?;
    list.extend_from_slice(numbers.as_bytes())
}

/// Adds the line of a piece.
pub fn add_line(list: &mut Vec<u8>, alloc: Global, piece: Piece<'_>) -> Result<(), AllocError> {
    match piece {
        Piece::Segment { shape, length } => {
            list.extend_from_slice(b"segment")?;
            add_shape(list, alloc, shape)?;
            let length = format!(in alloc; " {length}")?;
            list.extend_from_slice(length.as_bytes())?;
        }
        Piece::Diagonal => list.extend_from_slice(b"diagonal")?,
        Piece::Rectangle(shape) => {
            list.extend_from_slice(b"rectangle")?;
            add_shape(list, alloc, shape)?;
        }
        Piece::ViaShape { via, at, shape, .. } => {
            list.extend_from_slice(b"via ")?;
            list.extend_from_slice(via)?;
            let place = format!(in alloc; " {} {}", at.x, at.y)?;
            list.extend_from_slice(place.as_bytes())?;
            add_shape(list, alloc, shape)?;
        }
        Piece::UnknownVia(via) => {
            list.extend_from_slice(b"unknown ")?;
            list.extend_from_slice(via)?;
        }
        Piece::ViaOffLayer(via) => {
            list.extend_from_slice(b"stays ")?;
            list.extend_from_slice(via)?;
        }
    }
    list.push(b'\n')?;
    Ok(())
}
