//! The scanner, runs and cursors on texts whose tokens and faults were written down by hand.

use design_model::fault::Fault;
use design_model::token_kind::TokenKind;
use lefdef_tokens::{
    Cursor, Scanner, Span, TokenRun, is_name, is_place, is_plain, is_plus, is_quoted, is_semicolon,
    is_stop, is_word, skip_plain, token_at,
};
use std::alloc::{AllocError, Global};
use std::test::Fail;

fn add_fault(list: &mut Vec<u8>, alloc: Global, fault: Fault) -> Result<(), AllocError> {
    let line = format!(in alloc; "F{} {}\n", fault.code.number(), fault.pos)?;
    list.extend_from_slice(line.as_bytes())
}

/// A line for each token: `w` or `q`, its place, a space, its bytes; then `end`, or the number of the fault and its
/// place. After these the scanner is asked once more, and what it answers is a line too.
fn listed(alloc: Global, text: &[u8]) -> Result<Vec<u8>, AllocError> {
    let mut list = Vec::new(alloc);
    let mut scanner = Scanner::new(text);
    let mut has_ended = false;
    for _ in 0..100 {
        let is_end = match scanner.next() {
            Ok(Some(token)) => {
                let kind = match token.kind {
                    TokenKind::Word => 'w',
                    TokenKind::Quoted => 'q',
                };
                let front = format!(in alloc; "{kind}{} ", token.pos)?;
                list.extend_from_slice(front.as_bytes())?;
                list.extend_from_slice(token.bytes)?;
                list.push(b'\n')?;
                false
            }
            Ok(None) => {
                list.extend_from_slice(b"end\n")?;
                true
            }
            Err(fault) => {
                add_fault(&mut list, alloc, fault)?;
                true
            }
        };
        if is_end && has_ended {
            break;
        }
        has_ended = is_end;
    }
    Ok(list)
}

#[test]
fn lists_tokens(rt: HostRuntime) -> Result<(), Fail> {
    let rows: [(&[u8], &[u8]); 22] = [
        (b"", b"end\nend\n"),
        (b" \t\r\n", b"end\nend\n"),
        (b"a", b"w0 a\nend\nend\n"),
        (b"END DESIGN\n", b"w0 END\nw4 DESIGN\nend\nend\n"),
        (b"( 10 -5 );", b"w0 (\nw2 10\nw5 -5\nw8 );\nend\nend\n"),
        (b"a;b+c", b"w0 a;b+c\nend\nend\n"),
        (b"x\r\ny\r\n", b"w0 x\nw3 y\nend\nend\n"),
        (b"# only a comment", b"end\nend\n"),
        (b"a # b \"c\nd", b"w0 a\nw9 d\nend\nend\n"),
        (b"#\n#\n#x\n y", b"w8 y\nend\nend\n"),
        (b"net#5 # 6", b"w0 net#5\nend\nend\n"),
        (b"# a\r b\nc", b"w7 c\nend\nend\n"),
        (b"\"a b\" c", b"q0 \"a b\"\nw6 c\nend\nend\n"),
        (b"\"\"", b"q0 \"\"\nend\nend\n"),
        (b"\"\"\"\"", b"q0 \"\"\nq2 \"\"\nend\nend\n"),
        (b"\"a\\\"b\"", b"q0 \"a\\\"b\"\nend\nend\n"),
        (b"\"\\\\\" x\"", b"q0 \"\\\\\" x\"\nend\nend\n"),
        (
            b"\"# no comment\"x",
            b"q0 \"# no comment\"\nw14 x\nend\nend\n",
        ),
        (b"\"a\nb\" c", b"q0 \"a\nb\"\nw6 c\nend\nend\n"),
        (
            b"abcdefghijklmnopqrstuvwxyz 0123456789abcdef\tx",
            b"w0 abcdefghijklmnopqrstuvwxyz\nw27 0123456789abcdef\nw44 x\nend\nend\n",
        ),
        (b"x\"y\" z", b"w0 x\"y\"\nw5 z\nend\nend\n"),
        (
            b"\xc3\xa9 \x80\xff # \xfe\n\"\x81\"",
            b"w0 \xc3\xa9\nw3 \x80\xff\nq10 \"\x81\"\nend\nend\n",
        ),
    ];
    for (text, expected) in rows {
        let list = listed(rt.alloc(), text)?;
        assert_eq!(rt; list.as_slice(), expected, "of {text:?}");
    }
    Ok(())
}

#[test]
fn lists_faults(rt: HostRuntime) -> Result<(), Fail> {
    let rows: [(&[u8], &[u8]); 17] = [
        (b"\x7f", b"F1 0\nF1 0\n"),
        (b"\0", b"F1 0\nF1 0\n"),
        (b"a \x1f", b"w0 a\nF1 2\nF1 2\n"),
        (b"ab\x7fcd", b"F1 2\nF1 2\n"),
        (b"a\x0b", b"F1 1\nF1 1\n"),
        (b"a b\x0c", b"w0 a\nF1 3\nF1 3\n"),
        (b"a # b \x7f\nc", b"w0 a\nF1 6\nF1 6\n"),
        (b"#\x08", b"F1 1\nF1 1\n"),
        (b"\"a\x7f\"", b"F1 2\nF1 2\n"),
        (b"\"\x01", b"F1 1\nF1 1\n"),
        (b"x \"a\n\x02\" \x03", b"w0 x\nF1 5\nF1 5\n"),
        (b"\"", b"F2 0\nF2 0\n"),
        (b"a \"b", b"w0 a\nF2 2\nF2 2\n"),
        (b"\"\\\"", b"F2 0\nF2 0\n"),
        (b"\"\\\\\"", b"F2 0\nF2 0\n"),
        (b"\"a\" \"b # \n", b"q0 \"a\"\nF2 4\nF2 4\n"),
        (
            b"a_word_of_more_than_sixteen_bytes\x7f x",
            b"F1 33\nF1 33\n",
        ),
    ];
    for (text, expected) in rows {
        let list = listed(rt.alloc(), text)?;
        assert_eq!(rt; list.as_slice(), expected, "of {text:?}");
    }
    Ok(())
}

#[test]
fn reads_a_statement(rt: HostRuntime) -> Result<(), Fail> {
    let text = b"- u1 * + SOURCE \"a b\" x y ;";
    let run = TokenRun::of_text(text).ok().ok_or("no run")?;
    let start = Cursor::start(run);
    assert!(rt; start.peek().ok_or("no token")?.bytes == b"-".as_slice() && start.len() == 9);
    let cursor = start.key(b"-").ok_or("no -")?;
    let (name, cursor) = cursor.name().ok_or("no name")?;
    assert_eq!(rt; (name.bytes, name.pos), (b"u1".as_slice(), 2));
    assert!(rt; cursor.key(b"u1").is_none() && cursor.name().is_none());
    let (place, cursor) = cursor.place().ok_or("no place")?;
    assert_eq!(rt; place.pos, 5);
    assert!(rt; cursor.place().is_none() && cursor.plain_word().is_none());
    assert!(rt; cursor.next_is_plus() && cursor.next_is_stop() && !cursor.next_is(b"*"));
    let cursor = cursor.noted(true, 7).noted(false, 6).noted(false, 5);
    let (plus, cursor) = cursor.next().ok_or("no token")?;
    assert_eq!(rt; plus.pos, 7);
    let (source, end) = cursor.rest();
    assert_eq!(rt; (source.len(), end.len(), end.bad), (4, 1, Some(6)));
    assert!(rt; end.next_is(b";") && end.next_is_stop() && !end.next_is_plus() && !end.is_done());
    let none = end.key(b";").ok_or("no ;")?;
    assert!(rt; none.is_done() && none.peek().is_none() && none.next().is_none());
    Ok(())
}

#[test]
fn reads_to_ends(rt: HostRuntime) -> Result<(), Fail> {
    let run = TokenRun::of_text(b"a + b ; c").ok().ok_or("no run")?;
    let start = Cursor::start(run);
    let (clause, plus) = start.rest();
    assert_eq!(rt; (clause.len(), plus.len()), (1, 4));
    let (statement, semicolon) = start.up_to_semicolon();
    assert_eq!(rt; (statement.len(), semicolon.len()), (3, 2));
    assert!(rt; semicolon.next_is(b";"));
    let (all, end) = plus.tail();
    assert_eq!(rt; (all.len(), all.pos, end.len()), (4, 1, 0));
    assert!(rt; end.is_done() && end.peek().is_none());
    Ok(())
}

#[test]
fn splits_a_run(rt: HostRuntime) -> Result<(), Fail> {
    let run = TokenRun::of_text(b"SOURCE \"a b\" x y ")
        .ok()
        .ok_or("no run")?;
    assert!(rt; !run.is_empty() && run.len() == 4 && run.token(4).is_none());
    let (word, _) = Cursor::start(run).plain_word().ok_or("no word")?;
    assert_eq!(rt; word.bytes, b"SOURCE".as_slice());
    let quoted = run.token(1).ok_or("no string")?;
    assert_eq!(rt; (quoted.bytes, quoted.pos), (b"\"a b\"".as_slice(), 7));
    let (first, later) = run.split_first().ok_or("no first")?;
    assert_eq!(rt; (first.pos, later.len()), (0, 3));
    assert_eq!(rt;
        (run.front(2).len(), run.skip(3).len(), run.skip(5).len()),
        (2, 1, 0)
    );
    assert!(rt; run.span() == Span { lo: 0, hi: 16 });
    assert!(rt; run.front(2).skip(1).span() == Span { lo: 7, hi: 12 });
    assert!(rt; run.skip(4).span() == Span { lo: 0, hi: 0 });
    assert!(rt; TokenRun::of_text(b"a \"").is_err() && token_at(b"a \"", 1).is_err());
    Ok(())
}

#[test]
fn tells_words_apart(rt: HostRuntime) {
    // string, +, ;, stop, plain, place, name
    let rows: [(&[u8], [bool; 7]); 12] = [
        (b"", [false, false, false, false, true, true, true]),
        (b"u1", [false, false, false, false, true, true, true]),
        (b"+", [false, true, false, true, false, false, false]),
        (b";", [false, false, true, true, false, false, false]),
        (b"(", [false, false, false, false, true, false, false]),
        (b")", [false, false, false, false, true, false, false]),
        (b"-", [false, false, false, false, true, false, false]),
        (b"*", [false, false, false, false, true, true, false]),
        (b"-5", [false, false, false, false, true, true, true]),
        (b"+;", [false, false, false, false, true, true, true]),
        (b"\"", [true, false, false, false, false, false, false]),
        (b"\"+\"", [true, false, false, false, false, false, false]),
    ];
    for (bytes, expected) in rows {
        let answers = [
            is_quoted(bytes),
            is_plus(bytes),
            is_semicolon(bytes),
            is_stop(bytes),
            is_plain(bytes),
            is_place(bytes),
            is_name(bytes),
        ];
        assert_eq!(rt; answers, expected, "of {bytes:?}");
    }
    assert!(rt; is_word(b"END", b"END") && !is_word(b"END", b"EN"));
}

#[test]
fn skips_to_the_semicolon(rt: HostRuntime) {
    let net =
        b"- net ( u1 A ) ( u2 B ) + ROUTED m1 ( 100 200 ) ( * 300 ) via1 NEW m2 ( 100 300 ) ( 400 * ) ; - other ( u3 A ) ( u4 B ) + ROUTED m1 ( 100 200 ) ( * 300 ) ;";
    let quote =
        b"- a\tb\r\nc   + SOURCE DIST + PROPERTY p wo\"rd 1 ; - the words that stand after it in this text";
    let long =
        b"- a_word_that_goes_on_past_the_sixty_four_bytes_that_are_gone_over_at_once_or_so b ;";
    let comment =
        b"- a # b ; no comment ends before its line does and this one is more than sixty-four bytes";
    let rows: [(&[u8], usize, (usize, usize)); 6] = [
        (net, 0, (0, 0)),
        (net, 1, (92, 31)),
        (net, 155, (155, 0)),
        (quote, 1, (38, 9)),
        (long, 1, (2, 0)),
        (comment, 1, (4, 1)),
    ];
    for (text, from, expected) in rows {
        assert_eq!(rt; skip_plain(text, from), expected, "of {text:?} from {from}");
    }
}
