//! Numbers 1, 2 and 7: the size of a datagram, messages that cannot be read, and ranges past the pack.

use crate::support::{refused, Trace};
use second::packets::{ack, cancel, data, have, integrity, request, CHOKE, REFUSED};

#[test]
fn size() {
    let line = format!("{:016x}000001", 0);
    refused(&Trace::abc().line(&line), "01", "it has 3 bytes");
    let line = format!("{:016x}", 0);
    refused(&Trace::abc().line(&line), "01", "it has 0 bytes");
}

/// The message stands at byte 4: behind the 16 digits of the clock and the 8 of the destination.
fn malformed(message: &[u8], rule: &str) {
    let trace = Trace::seven().take(&[message]);
    let reason = format!("message 1 at byte 4 (digit 25): {rule}");
    refused(&trace, "02", &reason);
}

#[test]
fn message_that_cannot_be_read() {
    malformed(&REFUSED, "type 7 is unknown");
    malformed(&[255], "type 255 is unknown");
    let above = "the first chunk of HAVE, 5, is above the last, 4";
    malformed(&have(5, 4), above);
    malformed(
        &data(0, 1, 0, b"abc"),
        "DATA has the range 0..1, not one chunk",
    );
    for (first, last) in [(1, 2), (0, 2), (2, 5)] {
        let rule = format!("INTEGRITY has the range {first}..{last}, no node's");
        malformed(&integrity(first, last, &[0; 32]), &rule);
    }
}

#[test]
fn message_cut_short() {
    let all = [
        (have(0, 0), "HAVE is cut short: 7 of 8 bytes"),
        (request(0, 0), "REQUEST is cut short: 7 of 8 bytes"),
        (cancel(0, 0), "CANCEL is cut short: 7 of 8 bytes"),
        (ack(0, 0, 0), "ACK is cut short: 15 of 16 bytes"),
        (
            data(0, 0, 0, b""),
            "DATA is cut short: 15 of 16 bytes and a chunk",
        ),
        (
            integrity(0, 0, &[0; 32]),
            "INTEGRITY is cut short: 39 of 40 bytes",
        ),
    ];
    for (message, rule) in all {
        let rule = format!("{rule} stand behind its type");
        malformed(&message[..message.len() - 1], &rule);
    }
}

#[test]
fn later_message_is_named_with_its_place() {
    // 4 bytes of destination, 1 of CHOKE, 9 of HAVE; digit 16 + 2 * 14 + 1.
    let trace = Trace::seven().take(&[&CHOKE, &have(0, 0), &REFUSED]);
    let reason = "message 3 at byte 14 (digit 45): type 7 is unknown";
    refused(&trace, "02", reason);
    let rows = trace.last();
    let messages = "messages  CHOKE; HAVE of 0; 1 byte that cannot be read";
    assert!(rows.contains(&messages.to_string()), "{rows:#?}");
}

#[test]
fn node_twice() {
    let (four, one) = (integrity(0, 3, &[1; 32]), integrity(0, 0, &[1; 32]));
    // 4 bytes of destination, 41 of each INTEGRITY; digit 16 + 2 * 86 + 1.
    let trace = Trace::seven().take(&[&one, &four, &integrity(0, 3, &[2; 32])]);
    let reason = "message 3 at byte 86 (digit 189): INTEGRITY of chunks 0..3 comes twice, before as message 2";
    refused(&trace, "02", reason);
}

#[test]
fn range_past_the_pack() {
    let past = "runs past the pack, whose last chunk is 6";
    let of = |messages: &[&[u8]], words: &str| {
        let reason = format!("{words} {past}");
        refused(&Trace::seven().take(messages), "07", &reason);
    };
    of(&[&have(7, 7)], "HAVE of chunk 7");
    of(&[&request(0, u32::MAX)], "REQUEST of chunks 0..4294967295");
    of(&[&data(7, 7, 0, b"")], "DATA of chunk 7");
    // The first of two from the left.
    of(
        &[&ack(0, 6, 0), &integrity(0, 7, &[0; 32]), &have(9, 9)],
        "INTEGRITY of chunks 0..7",
    );
}
