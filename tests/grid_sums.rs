//! Sums of areas by the cells of a grid, against the areas of each cell and each rectangle.

use cell_sums::{CellSums, GridLines};
use design_model::geometry::{Point, Rect};
use orient_geom::span;
use std::alloc::{AllocError, Global};
use std::hash::RandomState;
use std::process::Abort;
use std::random::RandomSource;
use std::test::Fail;

/// A rectangle on a layer.
#[derive(Clone, Copy)]
struct Drawn {
    layer: usize,
    rect: Rect,
}

/// Numbers that look random, below a limit.
#[derive(Clone, Copy)]
struct Dice {
    state: u64,
}

impl Dice {
    fn below(&mut self, limit: u64) -> i64 {
        self.state = self
            .state
            .wrapping_mul(6364136223846793005)
            .wrapping_add(1442695040888963407);
        ((self.state >> 33) % limit) as i64
    }
}

/// So many lines in no order, within plus or minus a reach, some of them twice.
fn scattered_lines(
    alloc: Global,
    dice: &mut Dice,
    count: usize,
    reach: u64,
) -> Result<Vec<i64>, AllocError> {
    let mut lines = Vec::new(alloc);
    for _ in 0..count {
        let line = dice.below(2 * reach + 1) - reach as i64;
        lines.push(line)?;
        if dice.below(4) == 0 {
            lines.push(line)?;
        }
    }
    Ok(lines)
}

/// So many rectangles on three layers, up to a size and beyond the lines too, points and lines among them.
fn scattered_rects(
    alloc: Global,
    dice: &mut Dice,
    count: usize,
    reach: u64,
    size: u64,
) -> Result<Vec<Drawn>, AllocError> {
    let mut drawn = Vec::new(alloc);
    for _ in 0..count {
        let x = dice.below(3 * reach) - (reach + reach / 2) as i64;
        let y = dice.below(3 * reach) - (reach + reach / 2) as i64;
        let (width, height) = (dice.below(size), dice.below(size));
        let layer = dice.below(3) as usize;
        let upper_right = Point {
            x: x + width,
            y: y + height,
        };
        let rect = span(Point { x, y }, upper_right);
        drawn.push(Drawn { layer, rect })?;
    }
    Ok(drawn)
}

/// The least line behind another.
fn next_line(lines: &[i64], last: i64) -> Option<i64> {
    lines.iter().copied().filter(|line| *line > last).min()
}

/// The lines in order, each once.
fn ordered(alloc: Global, lines: &[i64]) -> Result<Vec<i64>, AllocError> {
    let mut found = Vec::new(alloc);
    let mut last = i64::MIN;
    while let Some(line) = next_line(lines, last) {
        found.push(line)?;
        last = line;
    }
    Ok(found)
}

/// The length that two stretches have in common.
fn common(a: (i64, i64), b: (i64, i64)) -> u128 {
    let low = a.0.max(b.0);
    let high = a.1.min(b.1);
    if low < high {
        (high - low) as u128
    } else {
        0
    }
}

/// What rectangles have in common with a cell on a layer, summed.
fn area_of(drawn: &[Drawn], layer: usize, across: (i64, i64), upward: (i64, i64)) -> u128 {
    let mut area = 0;
    for it in drawn {
        if it.layer == layer {
            let rect = it.rect;
            area += common(across, (rect.x1, rect.x2)) * common(upward, (rect.y1, rect.y2));
        }
    }
    area
}

/// Adds all rectangles to the cells between lines, and compares the sum of each cell.
fn compare(
    alloc: Global,
    rt: &(impl Abort + RandomSource),
    columns: Vec<i64>,
    rows: Vec<i64>,
    drawn: &[Drawn],
) -> Result<(), Fail> {
    let across = ordered(alloc, &columns)?;
    let upward = ordered(alloc, &rows)?;
    let mut sums = CellSums::new(
        alloc,
        RandomState::new(rt)?,
        GridLines::of(columns),
        GridLines::of(rows),
    );
    for it in drawn {
        sums.add(it.layer, it.rect)?;
    }
    for layer in 0..4 {
        for column in 0..across.len() + 1 {
            for row in 0..upward.len() + 1 {
                let want = if column + 1 < across.len() && row + 1 < upward.len() {
                    let sides = (across[column], across[column + 1]);
                    let ends = (upward[row], upward[row + 1]);
                    Some(area_of(drawn, layer, sides, ends))
                } else {
                    None
                };
                assert_eq!(rt; sums.sum(layer, column, row), want);
            }
        }
    }
    Ok(())
}

#[test]
fn a_few_cells(rt: HostRuntime) -> Result<(), Fail> {
    let mut columns = Vec::new(rt.alloc());
    let mut rows = Vec::new(rt.alloc());
    for line in [10, -10, 0, 10] {
        columns.push(line)?;
        rows.push(line / 2)?;
    }
    let mut sums = CellSums::new(
        rt.alloc(),
        RandomState::new(&rt)?,
        GridLines::of(columns),
        GridLines::of(rows),
    );
    let rect = span(Point { x: -3, y: -2 }, Point { x: 4, y: 1 });
    sums.add(1, rect)?;
    sums.add(1, rect)?;
    assert_eq!(rt; sums.sum(1, 0, 0), Some(12));
    assert_eq!(rt; sums.sum(1, 1, 0), Some(16));
    assert_eq!(rt; sums.sum(1, 0, 1), Some(6));
    assert_eq!(rt; sums.sum(1, 1, 1), Some(8));
    assert_eq!(rt; sums.sum(0, 1, 1), Some(0));
    assert_eq!(rt; sums.sum(1, 2, 0), None);
    assert_eq!(rt; sums.sum(1, 0, 2), None);
    Ok(())
}

#[test]
fn scattered_cells(rt: HostRuntime) -> Result<(), Fail> {
    for (count, reach, rects, size) in [
        (0, 10, 5, 10),
        (1, 10, 5, 10),
        (2, 10, 20, 10),
        (20, 30, 100, 40),
        (150, 1000, 60, 700),
        (300, 120, 30, 200),
        (60, 2147483647, 60, 4000000000),
    ] {
        let mut dice = Dice {
            state: reach ^ size,
        };
        let columns = scattered_lines(rt.alloc(), &mut dice, count, reach)?;
        let rows = scattered_lines(rt.alloc(), &mut dice, count / 2 + 1, reach)?;
        let drawn = scattered_rects(rt.alloc(), &mut dice, rects, reach, size)?;
        compare(rt.alloc(), &rt, columns, rows, &drawn)?;
    }
    Ok(())
}

#[test]
fn rectangles_over_all_cells(rt: HostRuntime) -> Result<(), Fail> {
    let mut dice = Dice { state: 7 };
    let columns = scattered_lines(rt.alloc(), &mut dice, 200, 2147483647)?;
    let rows = scattered_lines(rt.alloc(), &mut dice, 3, 2147483647)?;
    let mut drawn = Vec::new(rt.alloc());
    let lowest = Point {
        x: i64::MIN,
        y: i64::MIN,
    };
    let highest = Point {
        x: i64::MAX,
        y: i64::MAX,
    };
    for rect in [
        span(lowest, highest),
        span(lowest, lowest),
        span(lowest, Point { x: 0, y: i64::MAX }),
    ] {
        drawn.push(Drawn { layer: 2, rect })?;
    }
    compare(rt.alloc(), &rt, columns, rows, &drawn)
}
