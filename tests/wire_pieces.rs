//! The pieces of entries of nets and of special nets, from their texts, by rules of one width.
//! Nothing is proved of these rules, so their ghost members are left open.

use crate::piece_lines::add_line;
use design_model::geometry::Rect;
use lefdef_tokens::{Cursor, TokenRun};
use std::test::Fail;
use wire_parts::nets::{NetEntry, NetParts, net_entry_at};
use wire_parts::special_nets::special_net_at;
use wire_reading::{NetMakingsOf, SpecialMakingsOf, net_pieces, special_net_pieces};
use wire_shapes::{LayerShape, LayerShapes, Piece, ViaOn, WiringMakings};

/// One shape.
#[derive(Clone, Copy, Drop)]
struct OneShape<'l> {
    layer: &'l [u8],
    is_given: bool,
}

impl<'l> LayerShapes<'l> for OneShape<'l> {
    ghost shapes = { ? };

    fn next(&mut self) -> Option<LayerShape<'l>> {
        if self.is_given {
            return None;
        }
        self.is_given = true;
        let rect = Rect {
            x1: -1,
            y1: -2,
            x2: 3,
            y2: 4,
        };
        Some(LayerShape {
            layer: self.layer,
            rect,
        })
    }
}

/// Wires of one width, with a table that they borrow as the rules of a design do.
#[derive(Drop)]
struct OneWidth<'l, A> {
    width: i64,
    rules: &'l [A],
}

impl<'l, A> WiringMakings<'l> for OneWidth<'l, A> {
    type Shapes = OneShape<'l>;

    ghost rules = { ? };

    fn width(&self, _layer: &[u8]) -> i64 {
        self.width
    }

    fn past_end(&self, width: i64) -> i64 {
        width / 2
    }

    fn via_on(&self, _via: &[u8], _layer: &[u8]) -> ViaOn<'l> {
        ViaOn::Stays
    }

    fn via_shapes(&self, _via: &[u8]) -> OneShape<'l> {
        OneShape {
            layer: b"cut",
            is_given: false,
        }
    }
}

/// 200 wide, and by a rule 400.
#[derive(Clone, Copy, Drop)]
struct ByRule<'t, A> {
    rules: &'t [A],
}

impl<'t, A> NetMakingsOf<'t> for ByRule<'t, A> {
    type Rules = OneWidth<'t, A>;

    ghost makings_of = { ? };

    fn rules(&self, rule: Option<&'t [u8]>) -> OneWidth<'t, A> {
        match rule {
            None => OneWidth {
                width: 200,
                rules: self.rules,
            },
            Some(_) => OneWidth {
                width: 400,
                rules: self.rules,
            },
        }
    }
}

/// As wide as is written.
#[derive(Drop)]
struct AsWritten {}

impl<'t> SpecialMakingsOf<'t> for AsWritten {
    type Rules = OneWidth<'t, u8>;

    ghost makings_of = { ? };

    fn rules(&self, width: i64) -> OneWidth<'t, u8> {
        OneWidth { width, rules: b"" }
    }
}

/// A table that is borrowed.
const NAMES: &[&[u8]] = &[b"wide"];

const NET: &[u8] = b"- n1 ( u1 A ) + NONDEFAULTRULE wide
+ ROUTED met1 ( 0 0 ) ( 1000 * ) MASK 3 ( * 500 50 ) v1 RECT ( 10 10 -10 -10 )
NEW met2 TAPER ( 0 0 5 ) VIRTUAL ( 100 * ) ( * 200 ) ( 300 300 ) ;";

const NET_LINES: &[u8] = b"segment met1 -200 -200 1200 200 1000
segment met1 800 -200 1200 550 500
via v1 1000 500 cut 999 498 1003 504
stays v1
rectangle met1 990 490 1010 510
segment met2 0 -100 200 300 200
diagonal
";

const SPECIAL_NET: &[u8] =
    b"- VDD + ROUTED met4 480 ( 0 0 0 ) ( 0 1000 0 ) v9 S DO 2 BY 3 STEP 100 200
NEW met5 0 + SHAPE STRIPE ( 5 5 ) ( 25 * ) + USE POWER ;";

const SPECIAL_LINES: &[u8] = b"segment met4 -240 0 240 1000 1000
via v9 0 1000 cut -3 996 1 1002
via v9 100 1000 cut 97 996 101 1002
via v9 0 1200 cut -3 1196 1 1202
via v9 100 1200 cut 97 1196 101 1202
via v9 0 1400 cut -3 1396 1 1402
via v9 100 1400 cut 97 1396 101 1402
stays v9
segment met5 5 5 25 5 20
";

/// The first piece of a net.
fn first_piece<'t, A>(parts: &NetParts<'t>, maker: ByRule<'t, A>) -> Option<Piece<'t>> {
    let mut pieces = net_pieces(parts, maker);
    pieces.next()
}

#[test]
fn pieces_of_a_net(rt: HostRuntime) -> Result<(), Fail> {
    let run = TokenRun::of_text(NET).ok().ok_or("no tokens")?;
    let (entry, _) = net_entry_at(Cursor::start(run)).ok_or("no entry")?;
    let NetEntry::Net(parts) = entry else {
        return Err("no net")?;
    };
    let mut list = Vec::new(rt.alloc());
    for piece in net_pieces(&parts, ByRule { rules: NAMES }) {
        add_line(&mut list, rt.alloc(), piece)?;
    }
    assert_eq!(rt; list.as_slice(), NET_LINES);
    Ok(())
}

#[test]
fn first_piece_of_a_net(rt: HostRuntime) -> Result<(), Fail> {
    let run = TokenRun::of_text(NET).ok().ok_or("no tokens")?;
    let (entry, _) = net_entry_at(Cursor::start(run)).ok_or("no entry")?;
    let NetEntry::Net(parts) = entry else {
        return Err("no net")?;
    };
    let piece = first_piece(&parts, ByRule { rules: NAMES }).ok_or("no piece")?;
    let mut list = Vec::new(rt.alloc());
    add_line(&mut list, rt.alloc(), piece)?;
    let expected = b"segment met1 -200 -200 1200 200 1000\n";
    assert_eq!(rt; list.as_slice(), expected.as_slice());
    Ok(())
}

#[test]
fn pieces_of_a_special_net(rt: HostRuntime) -> Result<(), Fail> {
    let run = TokenRun::of_text(SPECIAL_NET).ok().ok_or("no tokens")?;
    let (parts, _) = special_net_at(Cursor::start(run)).ok_or("no entry")?;
    let mut list = Vec::new(rt.alloc());
    for piece in special_net_pieces(&parts, AsWritten {}) {
        add_line(&mut list, rt.alloc(), piece)?;
    }
    assert_eq!(rt; list.as_slice(), SPECIAL_LINES);
    Ok(())
}
