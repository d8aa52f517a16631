//! Number 0: what a datagram did, and the reply.

use crate::support::{rows, run, File, Trace};
use second::packets::{ack, cancel, closing, data, have, integrity, request, CHOKE, UNCHOKE};

/// Asserts that the last line is done, with this effect.
fn done(trace: &Trace, effect: &str) {
    let rows = trace.last();
    assert!(rows.contains(&"answer    00 done".to_string()), "{rows:#?}");
    let effect = format!("effect    {effect}");
    assert!(rows.contains(&effect), "{effect}\n{rows:#?}");
}

#[test]
fn channels() {
    let opened = Trace::abc().opened(9);
    done(
        &opened,
        "opened channel 2 in row 1 for the peer's channel 9",
    );
    let again = Trace::abc().datagram(&reopening());
    let effect = "channel 1 is open to the peer's channel 17 already, nothing changed";
    done(&again, effect);
    let closed = opened.take(&[&closing()]);
    done(&closed, "closed channel 1, row 0 is free");
    done(
        &closed.opened(9),
        "opened channel 3 in row 0 for the peer's channel 9",
    );
}

/// The order's HANDSHAKE from the peer to channel 1.
fn reopening() -> Vec<u8> {
    let mut bytes = Vec::new();
    let line = &Trace::abc().lines[1];
    second::hex::decode(&line.as_bytes()[16..], &mut bytes).expect("digits");
    bytes[3] = 1;
    bytes
}

#[test]
fn what_a_peer_tells() {
    let trace = Trace::seven().take(&[&request(1, 5)]);
    done(&trace, "the peer now wants 1..5");
    let trace = trace.take(&[&cancel(3, 6)]);
    done(&trace, "the peer no longer wants 3..5");
    let trace = trace.take(&[&have(2, 2), &ack(4, 6, 0)]);
    done(
        &trace,
        "the peer now has 2, 4..6; the peer no longer wants 2",
    );
    done(&trace.take(&[&have(5, 6)]), "nothing changed");
}

#[test]
fn marks_and_messages_without_effect() {
    let trace = Trace::seven().take(&[&CHOKE]);
    done(&trace, "the peer has choked us");
    done(&trace.take(&[&UNCHOKE]), "the peer has unchoked us");
    done(&Trace::seven().take(&[]), "a keepalive, nothing changed");
    let hashes = Trace::seven().take(&[&integrity(0, 3, &[1; 32])]);
    done(&hashes, "hashes without DATA have no effect");
}

#[test]
fn whole_rows_of_a_stored_chunk() {
    // The clock is 5, the timestamp 7: the delay is 2^64 - 2.
    let digits = second::hex::encode(&second::packets::to(1, &[&data(0, 0, 7, b"abc")]));
    let trace = Trace::abc().line(&format!("{:016x}{digits}", 5));
    let wanted = [
        "line 3    clock 5, to channel 1 (row 0, peer's channel 17)",
        "messages  DATA of chunk 0, 3 bytes, sent at 7",
        "answer    00 done",
        "effect    stored chunk 0; acknowledges chunk 0 to the peer's channel 17; the pack is whole",
        "reply     to channel 17: ACK of chunk 0, delay 18446744073709551614",
    ];
    assert_eq!(trace.last(), wanted);
    let again = trace.take(&[&data(0, 0, 0, b"abc")]);
    let held = "chunk 0 was held already and is right again, nothing stored";
    let effect = format!("{held}; acknowledges chunk 0 to the peer's channel 17");
    done(&again, &effect);
}

#[test]
fn end_of_a_trace() {
    let digits = "0".repeat(17);
    let trace = Trace::abc().line(&digits).line("").take(&[&have(1, 1)]);
    let ran = run(&[File::new(trace.input())]);
    let (_, end) = ran.text.rsplit_once("\n\n").expect("lines before it");
    let wanted = [
        "the end   held: none; missing: 0",
        "whole     no",
        "refused   3 of 4 lines 07: 1 (a range or a chunk's number runs past the last chunk) 0f: 2 (the line is no frame: no clock and datagram in digits)",
    ];
    assert_eq!(rows(end), wanted);
    let whole = Trace::abc().take(&[&data(0, 0, 0, b"abc")]);
    let ran = run(&[File::new(whole.input())]);
    let end = "the end   held: 0; missing: none\nwhole     yes\nrefused   0 of 2 lines\n";
    assert!(ran.text.ends_with(end), "{}", ran.text);
}
