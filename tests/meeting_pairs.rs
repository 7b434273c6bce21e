//! The pairs of rectangles that meet, against those of a comparison of all with all.

use design_model::geometry::{Point, Rect};
use orient_geom::span;
use shape_pairs::{Numbered, for_meeting_pairs};
use std::alloc::{AllocError, Global};
use std::test::Fail;

/// The pairs that are told, in order.
fn told(alloc: Global, items: &[Numbered]) -> Result<Vec<(usize, usize)>, AllocError> {
    let begun: Result<Vec<(usize, usize)>, AllocError> = Ok(Vec::new(alloc));
    let all = for_meeting_pairs(alloc, items, begun, |pairs, first, second| {
        let mut pairs = pairs?;
        pairs.push((first, second))?;
        Ok(pairs)
    })?;
    let mut pairs = all?;
    pairs.sort_unstable();
    Ok(pairs)
}

/// Whether two rectangles share a point: neither ends before the other begins.
fn share_a_point(a: &Rect, b: &Rect) -> bool {
    !(a.x2 < b.x1 || b.x2 < a.x1 || a.y2 < b.y1 || b.y2 < a.y1)
}

/// The pairs that share a point, in order.
fn compared(alloc: Global, items: &[Numbered]) -> Result<Vec<(usize, usize)>, AllocError> {
    let mut pairs = Vec::new(alloc);
    for first in 0..items.len() {
        for second in first + 1..items.len() {
            if share_a_point(&items[first].rect, &items[second].rect) {
                pairs.push((items[first].id, items[second].id))?;
            }
        }
    }
    Ok(pairs)
}

/// The rectangle of two corners, numbered by its place.
fn push_rect(
    items: &mut Vec<Numbered>,
    x1: i64,
    y1: i64,
    x2: i64,
    y2: i64,
) -> Result<(), AllocError> {
    let rect = span(Point { x: x1, y: y1 }, Point { x: x2, y: y2 });
    let id = items.len();
    items.push(Numbered { rect, id })?;
    Ok(())
}

/// Numbers that look random, below a limit.
#[derive(Clone, Copy)]
struct Dice {
    state: u64,
}

impl Dice {
    fn below(&mut self, limit: u64) -> i64 {
        self.state = self
            .state
            .wrapping_mul(6364136223846793005)
            .wrapping_add(1442695040888963407);
        ((self.state >> 33) % limit) as i64
    }
}

/// So many rectangles up to a size, points and lines among them, with corners within plus or minus a reach.
fn scattered(
    alloc: Global,
    count: usize,
    reach: u64,
    size: u64,
) -> Result<Vec<Numbered>, AllocError> {
    let mut dice = Dice {
        state: reach ^ size,
    };
    let mut items = Vec::new(alloc);
    for _ in 0..count {
        let x = dice.below(2 * reach) - reach as i64;
        let y = dice.below(2 * reach) - reach as i64;
        let (width, height) = (dice.below(size), dice.below(size));
        push_rect(&mut items, x, y, x + width, y + height)?;
    }
    Ok(items)
}

#[test]
fn a_few_rectangles(rt: HostRuntime) -> Result<(), Fail> {
    let mut items = Vec::new(rt.alloc());
    // 0: a square, 1: touches it at a corner, 2: touches it along an edge, 3: one unit above it, and along an edge of 1
    push_rect(&mut items, -10, -10, 0, 0)?;
    push_rect(&mut items, 0, 0, 5, 5)?;
    push_rect(&mut items, -20, -10, -10, 0)?;
    push_rect(&mut items, -10, 1, 0, 2)?;
    // 4: within it, 5: equal to 4, 6: a point of 4, 7: a line through all of them
    push_rect(&mut items, -6, -6, -4, -4)?;
    push_rect(&mut items, -6, -6, -4, -4)?;
    push_rect(&mut items, -5, -5, -5, -5)?;
    push_rect(&mut items, -30, -5, 30, -5)?;
    let want = [
        (0, 1),
        (0, 2),
        (0, 4),
        (0, 5),
        (0, 6),
        (0, 7),
        (1, 3),
        (2, 7),
        (4, 5),
        (4, 6),
        (4, 7),
        (5, 6),
        (5, 7),
        (6, 7),
    ];
    let pairs = told(rt.alloc(), &items)?;
    assert_eq!(rt; pairs.as_slice(), want.as_slice());
    Ok(())
}

#[test]
fn scattered_rectangles(rt: HostRuntime) -> Result<(), Fail> {
    for (count, reach, size) in [
        (64, 50, 20),
        (65, 50, 20),
        (300, 100, 10),
        (300, 100, 1),
        (300, 5, 3),
        (300, 1000000, 30000),
        (1000, 1000, 60),
    ] {
        let items = scattered(rt.alloc(), count, reach, size)?;
        let pairs = told(rt.alloc(), &items)?;
        let want = compared(rt.alloc(), &items)?;
        assert_eq!(rt; pairs.as_slice(), want.as_slice());
    }
    Ok(())
}

#[test]
fn small_ones_among_long_ones(rt: HostRuntime) -> Result<(), Fail> {
    let mut items = scattered(rt.alloc(), 400, 1000, 40)?;
    for k in 0..100 {
        push_rect(&mut items, -1000, 20 * k - 1000, 1000, 20 * k - 997)?;
        push_rect(&mut items, 20 * k - 1000, -1000, 20 * k - 997, 1000)?;
    }
    let pairs = told(rt.alloc(), &items)?;
    let want = compared(rt.alloc(), &items)?;
    assert_eq!(rt; pairs.as_slice(), want.as_slice());
    Ok(())
}

#[test]
fn rectangles_far_out(rt: HostRuntime) -> Result<(), Fail> {
    let far = 2305843009213693952;
    let mut items = scattered(rt.alloc(), 100, 1000, 300)?;
    for k in 0..20 {
        push_rect(&mut items, -far, -far, k - far, k * k - far)?;
        push_rect(&mut items, far - k, far - 2 * k, far, far)?;
        push_rect(&mut items, -far, k, far, k)?;
    }
    push_rect(&mut items, -far, -far, far, far)?;
    push_rect(&mut items, i64::MIN, i64::MIN, i64::MAX, i64::MAX)?;
    let pairs = told(rt.alloc(), &items)?;
    let want = compared(rt.alloc(), &items)?;
    assert_eq!(rt; pairs.as_slice(), want.as_slice());
    Ok(())
}

#[test]
fn rectangles_at_one_place(rt: HostRuntime) -> Result<(), Fail> {
    let mut items = Vec::new(rt.alloc());
    for _ in 0..100 {
        push_rect(&mut items, -7, 3, -7, 3)?;
    }
    let pairs = told(rt.alloc(), &items)?;
    let want = compared(rt.alloc(), &items)?;
    assert_eq!(rt; pairs.len(), 4950);
    assert_eq!(rt; pairs.as_slice(), want.as_slice());
    Ok(())
}
