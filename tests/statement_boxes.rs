//! Boxes of statements: what is found among those that were made at once, put in and taken out is what a plain loop finds; and
//! a set of shapes that was made at once finds what one finds that was filled one by one.

use design_model::geometry::Rect;
use design_model::identifier::{LayerId, StmtId};
use shape_index::{Shape, ShapeSet, TiledShapes, met_of};
use statement_boxes::{StatementBox, StatementBoxes};
use std::alloc::{AllocError, Global};
use std::test::Fail;

const SIDES: [i64; 4] = [0, 1, 1000, 4097];

/// Lower left corners, some at the ends of what 64 bits hold.
const CORNERS: [(i64, i64); 8] = [
    (0, 0),
    (1, 1),
    (-1000, 0),
    (-4097, 4096),
    (1001, -999),
    (500000, 500000),
    (i64::MIN, i64::MIN),
    (i64::MAX - 4097, 0),
];

/// What is asked: points, lines and rectangles, some of which meet boxes in a corner or in a side alone, and some none.
const ASKED: [(i64, i64, i64, i64); 9] = [
    (0, 0, 0, 0),
    (1000, 1000, 1000, 1000),
    (-9000, 0, -1000, 0),
    (1, -9000, 1, 9000),
    (1002, 2, 5098, 4098),
    (400000, 400000, 499999, 499999),
    (504097, 504097, 600000, 600000),
    (i64::MIN, i64::MIN, i64::MIN, i64::MIN),
    (i64::MIN, i64::MIN, i64::MAX, i64::MAX),
];

fn rect_of(corners: (i64, i64, i64, i64)) -> Rect {
    let (x1, y1, x2, y2) = corners;
    Rect { x1, y1, x2, y2 }
}

/// A box of each side at each corner. Their numbers count from a first one on, and each third of them is repeated.
fn all_boxes(alloc: Global, first: usize) -> Result<Vec<StatementBox>, AllocError> {
    let mut boxes = Vec::new(alloc);
    let mut number = first;
    for (x, y) in CORNERS {
        for side in SIDES {
            let rect = rect_of((x, y, x + side, y + side));
            let id = StmtId(number);
            boxes.push(StatementBox { id, rect })?;
            if number % 3 == 0 {
                boxes.push(StatementBox { id, rect })?;
            }
            number += 1;
        }
    }
    Ok(boxes)
}

/// The numbers of the boxes of a list that meet a rectangle, in order.
fn numbers_met(
    alloc: Global,
    boxes: &[StatementBox],
    rect: Rect,
) -> Result<Vec<usize>, AllocError> {
    let mut numbers = Vec::new(alloc);
    for it in boxes {
        let across = it.rect.x1 <= rect.x2 && rect.x1 <= it.rect.x2;
        let upward = it.rect.y1 <= rect.y2 && rect.y1 <= it.rect.y2;
        if across && upward {
            numbers.push(it.id.0)?;
        }
    }
    numbers.sort_unstable();
    Ok(numbers)
}

/// The numbers that a set finds, in order.
fn numbers_found(
    alloc: Global,
    set: &StatementBoxes,
    rect: Rect,
) -> Result<Vec<usize>, AllocError> {
    let found = set.met(alloc, rect)?;
    let mut numbers = Vec::new(alloc);
    for id in found.ids.iter() {
        numbers.push(id.0)?;
    }
    numbers.sort_unstable();
    Ok(numbers)
}

/// How many questions a set answers otherwise than a loop over a list does.
fn other_answers(
    alloc: Global,
    set: &StatementBoxes,
    boxes: &[StatementBox],
) -> Result<usize, AllocError> {
    let mut others = 0;
    for corners in ASKED {
        let rect = rect_of(corners);
        let found = numbers_found(alloc, set, rect)?;
        let met = numbers_met(alloc, boxes, rect)?;
        if found.as_slice() != met.as_slice() {
            others += 1;
        }
    }
    Ok(others)
}

/// Takes each second box of a list out of it and out of a set. Answers how many of them the set had.
fn take_each_second(
    alloc: Global,
    set: &mut StatementBoxes,
    boxes: &mut Vec<StatementBox>,
) -> Result<usize, AllocError> {
    let mut left = Vec::new(alloc);
    let mut taken = 0;
    for (place, it) in boxes.iter().enumerate() {
        if place % 2 == 1 {
            left.push(*it)?;
        } else if set.remove(*it) {
            taken += 1;
        }
    }
    *boxes = left;
    Ok(taken)
}

#[test]
fn a_set_made_at_once_finds_what_a_loop_finds(rt: HostRuntime) -> Result<(), Fail> {
    let mut boxes = all_boxes(rt.alloc(), 0)?;
    let mut set = StatementBoxes::of(rt.alloc(), &boxes)?;
    assert_eq!(rt; boxes.len(), 43);
    assert_eq!(rt; other_answers(rt.alloc(), &set, &boxes)?, 0);
    assert_eq!(rt; take_each_second(rt.alloc(), &mut set, &mut boxes)?, 22);
    assert_eq!(rt; boxes.len(), 21);
    assert_eq!(rt; other_answers(rt.alloc(), &set, &boxes)?, 0);
    Ok(())
}

#[test]
fn a_set_filled_one_by_one_finds_what_a_loop_finds(rt: HostRuntime) -> Result<(), Fail> {
    let mut boxes = all_boxes(rt.alloc(), 7)?;
    let mut set = StatementBoxes::of(rt.alloc(), &[])?;
    for it in boxes.iter() {
        set.insert(*it)?;
    }
    assert_eq!(rt; other_answers(rt.alloc(), &set, &boxes)?, 0);
    let taken = take_each_second(rt.alloc(), &mut set, &mut boxes)?;
    assert_eq!(rt; taken, 21);
    assert_eq!(rt; boxes.len(), 21);
    for it in all_boxes(rt.alloc(), 100)?.iter() {
        set.insert(*it)?;
        boxes.push(*it)?;
    }
    assert_eq!(rt; other_answers(rt.alloc(), &set, &boxes)?, 0);
    Ok(())
}

#[test]
fn a_box_is_taken_out_by_its_number_and_its_rectangle(rt: HostRuntime) -> Result<(), Fail> {
    let rect = rect_of((0, 0, 10, 10));
    let held = StatementBox {
        id: StmtId(5),
        rect,
    };
    let other_number = StatementBox {
        id: StmtId(6),
        rect,
    };
    let other_rect = StatementBox {
        id: StmtId(5),
        rect: rect_of((0, 0, 10, 11)),
    };
    let mut set = StatementBoxes::of(rt.alloc(), &[held, held])?;
    assert!(rt; !set.remove(other_number));
    assert!(rt; !set.remove(other_rect));
    assert_eq!(rt;
        numbers_found(rt.alloc(), &set, rect)?.as_slice(),
        &[5, 5][..]
    );
    assert!(rt; set.remove(held));
    assert_eq!(rt; numbers_found(rt.alloc(), &set, rect)?.as_slice(), &[5][..]);
    assert!(rt; set.remove(held));
    assert!(rt; !set.remove(held));
    assert_eq!(rt; numbers_found(rt.alloc(), &set, rect)?.len(), 0);
    Ok(())
}

#[test]
fn touching_is_enough_and_far_boxes_are_not_compared(rt: HostRuntime) -> Result<(), Fail> {
    let set = StatementBoxes::of(rt.alloc(), &all_boxes(rt.alloc(), 0)?)?;
    let corner = set.met(rt.alloc(), rect_of((504097, 504097, 600000, 600000)))?;
    assert_eq!(rt; corner.ids.len(), 1);
    assert_eq!(rt; corner.ids[0].0, 23);
    assert!(rt; corner.compared < 10);
    let rects = set.met_rects(rt.alloc(), rect_of((504097, 504097, 600000, 600000)))?;
    assert_eq!(rt; rects.rects.len(), 1);
    assert_eq!(rt; rects.rects[0], rect_of((500000, 500000, 504097, 504097)));
    assert_eq!(rt; rects.compared, corner.compared);
    Ok(())
}

#[test]
fn shapes_made_at_once_are_those_filled_one_by_one(rt: HostRuntime) -> Result<(), Fail> {
    let mut shapes = Vec::new(rt.alloc());
    let mut filled = TiledShapes::new(rt.alloc());
    for it in all_boxes(rt.alloc(), 0)?.iter() {
        let layer = LayerId(it.id.0 % 2);
        let shape = Shape {
            layer,
            rect: it.rect,
            net: it.id.0,
        };
        shapes.push(shape)?;
        filled.reserve(1)?;
        filled.insert_reserved(shape);
    }
    let made = TiledShapes::of(rt.alloc(), &shapes)?;
    for layer in [0, 1, 2] {
        for corners in ASKED {
            let first = nets_met(rt.alloc(), &made, layer, rect_of(corners))?;
            let second = nets_met(rt.alloc(), &filled, layer, rect_of(corners))?;
            assert_eq!(rt; first.as_slice(), second.as_slice());
        }
    }
    Ok(())
}

#[test]
fn a_shape_is_found_by_all_of_it(rt: HostRuntime) -> Result<(), Fail> {
    let rect = rect_of((-3, -3, 3, 3));
    let held = Shape {
        layer: LayerId(1),
        rect,
        net: 8,
    };
    let set = TiledShapes::of(rt.alloc(), &[held])?;
    let found = set.find(held).and_then(|id| set.get(id));
    assert_eq!(rt; found.map_or(0, |shape| shape.net), 8);
    let elsewhere = Shape {
        layer: LayerId(0),
        ..held
    };
    let of_another_net = Shape { net: 7, ..held };
    assert!(rt; set.find(elsewhere).is_none());
    assert!(rt; set.find(of_another_net).is_none());
    Ok(())
}

/// The nets of the shapes on a layer that meet a rectangle, in order.
fn nets_met(
    alloc: Global,
    set: &TiledShapes,
    layer: usize,
    rect: Rect,
) -> Result<Vec<usize>, AllocError> {
    let found = met_of(alloc, set, LayerId(layer), rect)?;
    let mut nets = Vec::new(alloc);
    for (_, shape) in found.iter() {
        nets.push(shape.net)?;
    }
    nets.sort_unstable();
    Ok(nets)
}
