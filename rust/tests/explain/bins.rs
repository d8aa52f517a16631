//! Traces of a store under bins: what its messages name in words, and why they are refused.

use crate::support::{refused, rows, File, Server, Trace, ABC, PEER};
use ppspp::Addressing;
use second::hex;
use second::packets::bins::{
    ack, cancel, data, fixed, have, integrity, request, EMPTY, EVERYTHING,
};
use second::packets::{self, handshake, to, CHOKE};

/// A pack of seven chunks under a root of zeros, to which none belongs, with a channel open to the peer.
fn seven() -> Trace {
    Trace::under_bins(&"00".repeat(32), 7_162).opened(PEER)
}

/// Asserts that a row is among those of a trace's last line.
fn told(trace: &Trace, row: &str) {
    let rows = trace.last();
    assert!(rows.contains(&row.to_string()), "{row}\n{rows:#?}");
}

#[test]
fn order_of_a_trace() {
    let text = seven().run(&[]).text;
    let order =
        "the order: 7,162 bytes in 7 chunks, the last of 1,018 bytes; messages name them by bins";
    assert_eq!(rows(&text)[0], format!("line 1    {order}"));
}

#[test]
fn bins_are_told_with_their_part_inside_the_pack() {
    let trace = seven().take(&[&have(11)]);
    told(&trace, "messages  HAVE of chunks 4..6 (bin 11)");
    told(&trace, "effect    the peer now has 4..6");
    let trace = trace.take(&[
        &request(1),
        &request(13),
        &request(EMPTY),
        &cancel(EVERYTHING),
    ]);
    let requests = "REQUEST of chunks 0..1 (bin 1), chunk 6 (bin 13), no chunk (bin FFFFFFFF)";
    let cancel = "CANCEL of all chunks (bin 7FFFFFFF)";
    told(&trace, &format!("messages  {requests}; {cancel}"));
    told(&trace, "effect    nothing changed");
    let trace = trace.take(&[&ack(7, 250), &CHOKE]);
    told(
        &trace,
        "messages  ACK of chunks 0..6 (bin 7), delay 250; CHOKE",
    );
    told(
        &trace,
        "effect    the peer now has 0..3; the peer has choked us",
    );
    let trace = trace.take(&[&have(EMPTY)]);
    told(&trace, "messages  HAVE of no chunk (bin FFFFFFFF)");
    told(&trace, "effect    nothing changed");
    let trace = trace.take(&[&integrity(3, &[1; 32]), &integrity(12, &[1; 32])]);
    told(
        &trace,
        "messages  INTEGRITY of chunks 0..3 (bin 3), chunk 6 (bin 12)",
    );
}

#[test]
fn bins_past_the_pack() {
    let of = |message: &[u8], words: &str| {
        let reason = format!("{words} past the pack, whose last chunk is 6");
        refused(&seven().take(&[message]), "07", &reason);
    };
    of(&have(14), "HAVE of chunk 7 (bin 14) lies wholly");
    of(&request(23), "REQUEST of chunks 8..15 (bin 23) lies wholly");
    of(&ack(14, 0), "ACK of chunk 7 (bin 14) lies wholly");
    of(&data(14, 0, b""), "DATA of chunk 7 (bin 14) runs");
    of(
        &integrity(11, &[0; 32]),
        "INTEGRITY of chunks 4..7 (bin 11) runs",
    );
    // The first of two from the left; what lies partly inside is not past.
    let trace = seven().take(&[
        &have(11),
        &cancel(EMPTY),
        &integrity(7, &[0; 32]),
        &have(14),
    ]);
    let reason = "INTEGRITY of chunks 0..7 (bin 7) runs past the pack, whose last chunk is 6";
    refused(&trace, "07", reason);
}

/// The message stands at byte 4: behind the 16 digits of the clock and the 8 of the destination.
fn malformed(message: &[u8], rule: &str) {
    let reason = format!("message 1 at byte 4 (digit 25): {rule}");
    refused(&seven().take(&[message]), "02", &reason);
}

#[test]
fn bins_that_cannot_be_read() {
    let as_others = "as only HAVE, REQUEST and CANCEL may be";
    for (bin, words) in [
        (EMPTY, "no chunk (bin FFFFFFFF)"),
        (EVERYTHING, "all chunks (bin 7FFFFFFF)"),
    ] {
        malformed(&ack(bin, 0), &format!("ACK is of {words}, {as_others}"));
        let integrity = integrity(bin, &[0; 32]);
        malformed(&integrity, &format!("INTEGRITY is of {words}, {as_others}"));
        let data = data(bin, 0, b"abc");
        malformed(&data, &format!("DATA is of {words}, {as_others}"));
    }
    let odd = "DATA is of chunks 0..1 (bin 1), not of one chunk";
    malformed(&data(1, 0, b"abc"), odd);
    let cut = [
        (have(0), "HAVE is cut short: 3 of 4 bytes"),
        (request(0), "REQUEST is cut short: 3 of 4 bytes"),
        (cancel(0), "CANCEL is cut short: 3 of 4 bytes"),
        (ack(0, 0), "ACK is cut short: 11 of 12 bytes"),
        (
            data(0, 0, b""),
            "DATA is cut short: 11 of 12 bytes and a chunk",
        ),
        (
            integrity(0, &[0; 32]),
            "INTEGRITY is cut short: 35 of 36 bytes",
        ),
    ];
    for (message, rule) in cut {
        let rule = format!("{rule} stand behind its type");
        malformed(&message[..message.len() - 1], &rule);
    }
}

#[test]
fn node_twice() {
    // 4 bytes of destination, 37 of each INTEGRITY; digit 16 + 2 * 78 + 1.
    let hash = [1; 32];
    let trace = seven().take(&[
        &integrity(0, &hash),
        &integrity(3, &hash),
        &integrity(3, &hash),
    ]);
    let reason = "message 3 at byte 78 (digit 173): INTEGRITY of chunks 0..3 (bin 3) comes twice, before as message 2";
    refused(&trace, "02", reason);
}

#[test]
fn option_of_the_other_method() {
    let root = [0; 32];
    let trace = seven().datagram(&to(0, &[&handshake(5, &packets::fixed(&root))]));
    refused(&trace, "04", "option 6 (addressing) is 2, expected is 0");
    let ranges = Trace::seven().datagram(&to(0, &[&handshake(5, &fixed(&root))]));
    refused(&ranges, "04", "option 6 (addressing) is 0, expected is 2");
}

/// The pack `abc`, with a channel open to the peer; a wrong chunk, and the right one at clock 5.
fn abc() -> Trace {
    let trace = Trace::under_bins(ABC, 3).opened(PEER);
    let trace = trace.take(&[&data(0, 0, b"abd")]);
    let digits = hex::encode(&to(1, &[&data(0, 3, b"abc")]));
    trace.line(&format!("{:016x}{digits}", 5))
}

#[test]
fn whole_rows_of_a_stored_chunk() {
    let wanted = [
        "line 4    clock 5, to channel 1 (row 0, peer's channel 17)",
        "messages  DATA of chunk 0 (bin 0), 3 bytes, sent at 3",
        "answer    00 done",
        "effect    stored chunk 0; acknowledges chunk 0 (bin 0) to the peer's channel 17; the pack is whole",
        "reply     to channel 17: ACK of chunk 0 (bin 0), delay 2",
    ];
    assert_eq!(abc().last(), wanted);
}

#[test]
fn recorded_answers_agree() {
    let handshake =
        format!("00000000110000000001 00010101020020 {ABC} 0301 0402 0600 09 00000400 ff");
    let ack = "00 00000011 02 00000000 0000000000000002";
    let output = format!("{handshake}\n0a\n{ack}\nff0001\n").replace(' ', "");
    let ran = abc().run(&[File::new(output).as_ref()]);
    assert_eq!((ran.status, &ran.errors[..]), (Some(0), ""), "{}", ran.text);
    let agrees = "output    it has the answers of this library\n";
    assert!(ran.text.ends_with(agrees), "{}", ran.text);
    // Those of a store under ranges are others.
    let ranges = ack.replace("02 00000000", "02 00000000 00000000");
    let output = format!("{handshake}\n0a\n{ranges}\nff0001\n").replace(' ', "");
    assert_eq!(abc().run(&[File::new(output).as_ref()]).status, Some(1));
}

#[test]
fn recorded_download_is_explained() {
    let mut server = Server::new(Addressing::Bins, 7_162);
    let trace = server.trace();
    let trace = (0..7).fold(trace, |trace, chunk| trace.datagram(&server.written(chunk)));
    let hashes = "INTEGRITY of chunks 0..3 (bin 3), chunks 4..5 (bin 9), chunk 6 (bin 12)";
    let data = "DATA of chunk 6 (bin 12), 1,018 bytes, sent at 0";
    told(&trace, &format!("messages  {hashes}; {data}"));
    let text = trace.run(&[]).text;
    let end = "the end   held: 0..6; missing: none\nwhole     yes\nrefused   0 of 8 lines\n";
    assert!(text.ends_with(end), "{text}");
    assert!(text.lines().all(|row| row.len() <= 100), "{text}");
    let without = crate::support::run(&[File::new(trace.input())]).text;
    assert!(without.contains("option 6 (addressing) is 0, expected is 2"));
}

#[test]
fn json_has_the_bins() {
    let trace = seven().take(&[&have(11), &request(EMPTY), &CHOKE]);
    let text = trace.run(&["--json".as_ref()]).text;
    assert!(
        text.contains("\"chunks\": 7, \"addressing\": \"bins\"}"),
        "{text}"
    );
    let have = "{\"type\": \"HAVE\", \"place\": 4, \"first\": 4, \"last\": 7, \"bin\": 11, \
                \"text\": \"HAVE of chunks 4..6 (bin 11)\"}";
    let empty = "{\"type\": \"REQUEST\", \"place\": 9, \"bin\": 4294967295, \
                 \"text\": \"REQUEST of no chunk (bin FFFFFFFF)\"}";
    let choke = "{\"type\": \"CHOKE\", \"place\": 14, \"text\": \"CHOKE\"}";
    assert!(
        text.contains(&format!("[{have}, {empty}, {choke}]")),
        "{text}"
    );
    let ranges = Trace::seven().take(&[&packets::have(4, 6)]);
    let text = ranges.run(&["--json".as_ref()]).text;
    assert!(
        !text.contains("\"bin\"") && !text.contains("addressing"),
        "{text}"
    );
    // Ranges, told so, are as without.
    let named = ["--json", "--addressing", "ranges"].map(AsRef::as_ref);
    assert_eq!(ranges.run(&named).text, text);
}
