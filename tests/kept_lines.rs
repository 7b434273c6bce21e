//! Lines of a report that are kept while others go and come.

use design_model::diagnostic::{DiagKind, DiagLines};
use kept_lines::KeptLines;
use report_lines::Lines;
use std::alloc::{AllocError, Global};
use std::test::Fail;

/// A line for each of these names, that it overlaps with another component.
fn overlaps(alloc: Global, names: &[&[u8]]) -> Result<Lines, AllocError> {
    let mut lines = Lines::new(alloc);
    for name in names {
        lines.put(DiagKind::Overlap, &[*name, b"z"], &[])?;
    }
    Ok(lines)
}

/// The lines of a report, with a line end behind each.
fn printed(alloc: Global, report: &DiagLines) -> Result<Vec<u8>, AllocError> {
    let mut text = Vec::new(alloc);
    for line in report.as_slice() {
        text.extend_from_slice(line.text.as_slice())?;
        text.push(b'\n')?;
    }
    Ok(text)
}

#[test]
fn lines_are_kept_in_order(rt: HostRuntime) -> Result<(), Fail> {
    let alloc = rt.alloc();
    let kept = KeptLines::of(overlaps(alloc, &[b"d", b"b", b"c", b"b"])?);
    assert_eq!(rt; kept.len(), 4);
    let report = printed(alloc, &kept.copied(alloc)?)?;
    assert_eq!(rt;
        report.as_slice(),
        &b"overlap b z\noverlap b z\noverlap c z\noverlap d z\n"[..]
    );
    Ok(())
}

#[test]
fn lines_go_and_come(rt: HostRuntime) -> Result<(), Fail> {
    let alloc = rt.alloc();
    let mut kept = KeptLines::of(overlaps(alloc, &[b"d", b"b", b"c", b"b"])?);
    let out = overlaps(alloc, &[b"d", b"b"])?.into_sorted();
    let mut come = overlaps(alloc, &[b"e", b"c", b"a"])?;
    come.put(DiagKind::Outside, &[b"b"], &[])?;
    let mut put = come.into_sorted().into_vec();
    kept.reserve(put.len())?;
    kept.take_all(out.as_slice());
    assert_eq!(rt; kept.len(), 2);
    kept.put_all(&mut put);
    assert_eq!(rt; put.len(), 0);
    let report = kept.copied(alloc)?;
    assert_eq!(rt; report.as_slice()[0].kind, DiagKind::Outside);
    let report = printed(alloc, &report)?;
    assert_eq!(rt;
        report.as_slice(),
        &b"outside b\noverlap a z\noverlap b z\noverlap c z\noverlap c z\noverlap e z\n"[..]
    );
    Ok(())
}

#[test]
fn no_lines_are_kept(rt: HostRuntime) -> Result<(), Fail> {
    let alloc = rt.alloc();
    let mut kept = KeptLines::of(Lines::new(alloc));
    let mut put = overlaps(alloc, &[b"a"])?.into_sorted().into_vec();
    kept.take_all(&[]);
    kept.reserve(1)?;
    kept.put_all(&mut put);
    let out = kept.copied(alloc)?;
    assert_eq!(rt; kept.len(), 1);
    kept.take_all(out.as_slice());
    assert_eq!(rt; kept.len(), 0);
    Ok(())
}
