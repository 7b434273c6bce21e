//! Sets of shapes: what is searched from end to end and what is searched by tiles find the same.

use design_model::geometry::Rect;
use design_model::identifier::{LayerId, ShapeId};
use shape_index::{PlainShapes, Shape, ShapeSet, TiledShapes, met_of};
use std::alloc::{AllocError, Global};
use std::test::Fail;

const SIDES: [i64; 4] = [0, 1, 4096, 4097];

const CORNERS: [(i64, i64); 7] = [
    (0, 0),
    (-1, -1),
    (-4096, -4097),
    (-4097, 5),
    (4095, -8192),
    (8192, 8192),
    (-12289, -1),
];

/// What is asked: corners of rectangles, of which some are points or lines, and some meet shapes in a corner alone.
const ASKED: [(i64, i64, i64, i64); 9] = [
    (0, 0, 0, 0),
    (-1, -1, 0, 0),
    (-4096, -4097, -4096, 4097),
    (4097, 4096, 9000, 9000),
    (8191, -9000, 8191, 9000),
    (-20000, -20000, 20000, 20000),
    (12289, 12289, 12289, 12289),
    (-8193, -1, -8193, 4096),
    (i64::MIN, i64::MIN, i64::MAX, i64::MAX),
];

fn rect_of(corners: (i64, i64, i64, i64)) -> Rect {
    let (x1, y1, x2, y2) = corners;
    Rect { x1, y1, x2, y2 }
}

/// Puts a shape of each side at each corner in, on two layers by turns, and one over all that there is. Their nets count from
/// a first one on.
fn put_all<S: ShapeSet>(
    alloc: Global,
    set: &mut S,
    first: usize,
) -> Result<Vec<ShapeId>, AllocError> {
    let mut ids = Vec::new(alloc);
    let mut net = first;
    for (x, y) in CORNERS {
        for side in SIDES {
            let rect = rect_of((x, y, x + side, y + side));
            let layer = LayerId(net % 2);
            set.reserve(1)?;
            ids.push(set.insert_reserved(Shape { layer, rect, net }))?;
            net += 1;
        }
    }
    let layer = LayerId(1);
    let rect = rect_of((i64::MIN, i64::MIN, i64::MAX, i64::MAX));
    set.reserve(1)?;
    ids.push(set.insert_reserved(Shape { layer, rect, net }))?;
    Ok(ids)
}

/// The nets of the shapes on a layer that meet a rectangle, in order.
fn nets_met<S: ShapeSet>(
    alloc: Global,
    set: &S,
    layer: usize,
    rect: Rect,
) -> Result<Vec<usize>, AllocError> {
    let found = met_of(alloc, set, LayerId(layer), rect)?;
    let mut nets = Vec::new(alloc);
    for (_, shape) in found.iter() {
        nets.push(shape.net)?;
    }
    nets.sort_unstable();
    Ok(nets)
}

/// Adds the answers to all questions on each layer, each with its number of nets before it.
fn ask_all<S: ShapeSet>(
    alloc: Global,
    set: &S,
    answers: &mut Vec<usize>,
) -> Result<(), AllocError> {
    for layer in [0, 1, 2] {
        for corners in ASKED {
            let nets = nets_met(alloc, set, layer, rect_of(corners))?;
            answers.push(nets.len())?;
            for net in nets.iter() {
                answers.push(*net)?;
            }
        }
    }
    Ok(())
}

/// All answers of a run: on what was put in, when a third of it is out again, and when more has taken its numbers.
fn run<S: ShapeSet>(alloc: Global, set: &mut S) -> Result<Vec<usize>, AllocError> {
    let mut answers = Vec::new(alloc);
    ask_all(alloc, set, &mut answers)?;
    let ids = put_all(alloc, set, 0)?;
    ask_all(alloc, set, &mut answers)?;
    for (place, id) in ids.iter().enumerate() {
        if place % 3 == 1 {
            let taken = set.remove(*id);
            answers.push(taken.map_or(0, |shape| shape.net))?;
            let again = set.remove(*id);
            answers.push(again.map_or(7777, |shape| shape.net))?;
        }
        let stands = set.get(*id);
        answers.push(stands.map_or(8888, |shape| shape.net))?;
    }
    ask_all(alloc, set, &mut answers)?;
    put_all(alloc, set, 100)?;
    ask_all(alloc, set, &mut answers)?;
    Ok(answers)
}

#[test]
fn both_find_the_same(rt: HostRuntime) -> Result<(), Fail> {
    let mut plain = PlainShapes::new(rt.alloc());
    let mut tiled = TiledShapes::new(rt.alloc());
    let first = run(rt.alloc(), &mut plain)?;
    let second = run(rt.alloc(), &mut tiled)?;
    assert_eq!(rt; first.len(), second.len());
    for (a, b) in first.iter().zip(second.iter()) {
        assert_eq!(rt; *a, *b);
    }
    Ok(())
}

#[test]
fn a_corner_is_enough(rt: HostRuntime) -> Result<(), Fail> {
    let mut tiled = TiledShapes::new(rt.alloc());
    put_all(rt.alloc(), &mut tiled, 0)?;
    let even = nets_met(rt.alloc(), &tiled, 0, rect_of((-1, -1, 0, 0)))?;
    let odd = nets_met(rt.alloc(), &tiled, 1, rect_of((12289, 12289, 12289, 12289)))?;
    assert_eq!(rt; even.as_slice(), &[0, 2, 4, 6, 10][..]);
    assert_eq!(rt; odd.as_slice(), &[23, 28][..]);
    Ok(())
}

#[test]
fn a_search_compares_what_is_near(rt: HostRuntime) -> Result<(), Fail> {
    let mut plain = PlainShapes::new(rt.alloc());
    let mut tiled = TiledShapes::new(rt.alloc());
    let all = put_all(rt.alloc(), &mut plain, 0)?;
    put_all(rt.alloc(), &mut tiled, 0)?;
    let point = rect_of((100000, 100000, 100000, 100000));
    let (_, of_all) = plain.for_met(LayerId(1), point, 0usize, |n, _, _| n.saturating_add(1));
    let (_, of_near) = tiled.for_met(LayerId(1), point, 0usize, |n, _, _| n.saturating_add(1));
    assert_eq!(rt; all.len(), 29);
    assert_eq!(rt; of_all, 29);
    assert_eq!(rt; of_near, 1);
    Ok(())
}

/// The next of numbers that look like no order.
fn next_of(number: u64) -> u64 {
    number
        .wrapping_mul(6364136223846793005)
        .wrapping_add(1442695040888963407)
}

/// A small shape, of which many stand under one tile.
fn shape_of(number: u64, net: usize) -> Shape {
    let x = (number >> 33) as i64 % 5000;
    let y = (number >> 40) as i64 % 70;
    let side = (number >> 50) as i64 % 9;
    Shape {
        layer: LayerId(0),
        rect: rect_of((x, y, x + side, y + side)),
        net,
    }
}

/// Takes every shape out but each so many-th, and puts as many in as went. Answers the numbers that stand.
fn exchange<S: ShapeSet>(
    alloc: Global,
    set: &mut S,
    ids: &[ShapeId],
    left: usize,
    seed: u64,
) -> Result<Vec<ShapeId>, AllocError> {
    let mut standing = Vec::new(alloc);
    for (place, id) in ids.iter().enumerate() {
        if place % left == 0 {
            standing.push(*id)?;
        } else {
            set.remove(*id);
        }
    }
    let mut number = seed;
    while standing.len() < ids.len() {
        number = next_of(number);
        set.reserve(1)?;
        standing.push(set.insert_reserved(shape_of(number, standing.len())))?;
    }
    Ok(standing)
}

/// Asks a set for the nets along its shapes, after each exchange.
fn run_exchanges<S: ShapeSet>(
    alloc: Global,
    set: &mut S,
    ids: Vec<ShapeId>,
) -> Result<Vec<usize>, AllocError> {
    let mut ids = ids;
    let mut answers = Vec::new(alloc);
    for (turn, left) in [9000, 50, 2, 7, 9000, 3, 1].iter().enumerate() {
        ids = exchange(alloc, set, &ids, *left, turn as u64)?;
        for x in 0..50 {
            let rect = rect_of((x * 100, 10, x * 100 + 40, 30));
            for net in nets_met(alloc, set, 0, rect)?.iter() {
                answers.push(*net)?;
            }
        }
    }
    Ok(answers)
}

#[test]
fn sets_find_the_same_after_exchanges(rt: HostRuntime) -> Result<(), Fail> {
    let mut shapes = Vec::new(rt.alloc());
    let mut number = 7;
    for net in 0..1000 {
        number = next_of(number);
        shapes.push(shape_of(number, net))?;
    }
    let mut plain = PlainShapes::new(rt.alloc());
    let mut tiled = TiledShapes::of(rt.alloc(), &shapes)?;
    let mut plain_ids = Vec::new(rt.alloc());
    let mut tiled_ids = Vec::new(rt.alloc());
    for shape in shapes.iter() {
        plain.reserve(1)?;
        plain_ids.push(plain.insert_reserved(*shape))?;
        tiled_ids.push(tiled.find(*shape).unwrap())?;
    }
    let first = run_exchanges(rt.alloc(), &mut plain, plain_ids)?;
    let second = run_exchanges(rt.alloc(), &mut tiled, tiled_ids)?;
    assert_eq!(rt; first.as_slice(), second.as_slice());
    assert!(rt; first.len() > 1000);
    Ok(())
}
