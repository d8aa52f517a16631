//! Numbers, replies, IDs, and what is held at the end.

use super::*;
use crate::store::plain::hash;
use crate::tree;

/// The pack "abc" with a channel open to the peer's channel 7, then these
/// datagrams at these clocks: the answers to them and the closing line.
fn on_abc(datagrams: &[(u64, Vec<u8>)]) -> String {
    let lines: String = datagrams
        .iter()
        .map(|(clock, datagram)| line(*clock, datagram))
        .collect();
    let output = answer(format!("{}{}{lines}", abc(), opening(7)).as_bytes());
    let rest = output.strip_prefix(&opened(7, 1));
    rest.expect("the channel is open").to_string()
}

#[test]
fn a_pack_of_one_chunk_is_taken() {
    let chunk = to(1, &[&data(0, 0, 0x10, b"abc")]);
    // The ACK: to channel 7, type 2, 0..0, the delay 0x25 - 0x10.
    let ack = "0000000007020000000000000000";
    assert_eq!(
        on_abc(&[(0x25, chunk.clone()), (0x0f, chunk)]),
        // A repeat is acknowledged too; 0x0f - 0x10 is below zero.
        format!("{ack}0000000000000015\n{ack}ffffffffffffffff\nff0001\n")
    );
}

#[test]
fn a_refused_line_has_no_reply() {
    // 22 and 23: number 10 is 0a.
    assert_eq!(
        on_abc(&[
            (0, to(1, &[&data(0, 0, 0, b"abd")])),
            (0, to(1, &[&data(0, 0, 0, b"abcd")])),
            (0, to(1, &[&data(1, 1, 0, b"abc")])),
            (0, to(2, &[&data(0, 0, 0, b"abc")])),
            (0, to(1, &[&[7]])),
            (0, to(1, &[&[10], &closing()])),
            (0, to(1, &[&handshake(7, &[255])])),
        ]),
        "0a\n08\n07\n05\n02\n03\n04\nf00000\n"
    );
}

#[test]
fn ids_rise_with_each_channel_opened_and_only_then() {
    // 65, 67, 68, 69, 70
    let abc_root = hex_bytes(ABC).try_into().unwrap();
    let open = |source| line(0, &to(0, &[&handshake(source, &fixed(&abc_root))]));
    let refused = line(0, &to(0, &[&handshake(9, &[255])]));
    let close = |id| line(0, &to(id, &[&closing()]));
    let mut input = abc();
    let mut wanted = String::new();
    let mut add = |line: String, answer: &str| {
        input += &line;
        wanted += answer;
    };
    for id in 1..=16 {
        add(refused.clone(), "04\n");
        add(open(7), &opened(7, id));
    }
    add(open(8), "06\n");
    add(refused, "04\n");
    add(close(5), "00\n");
    add(close(5), "05\n");
    add(close(17), "05\n");
    add(open(8), &opened(8, 17));
    add(open(8), "06\n");
    add(line(0, &to(5, &[])), "05\n");
    add(line(0, &to(17, &[])), "00\n");
    add(String::new(), "f00000\n");
    assert_eq!(answer(input.as_bytes()), wanted);
}

/// The bytes of digits.
fn hex_bytes(digits: &str) -> Vec<u8> {
    let mut bytes = Vec::new();
    hex::decode(digits.as_bytes(), &mut bytes).unwrap();
    bytes
}

/// A download in order of a pack, each chunk with these nodes, over a channel to
/// the peer's channel 7.
fn downloaded(content: &[u8], nodes: impl Fn(u32) -> Vec<u64>) -> String {
    let count = content.len().div_ceil(1024) as u32;
    let root = hash(content, tree::root(count));
    let mut input = format!("{}{:08x}\n", hex::encode(&root), content.len());
    input += &line(0, &to(0, &[&handshake(7, &fixed(&root))]));
    for (number, bytes) in (0..).zip(content.chunks(1024)) {
        let mut datagram = to(1, &[]);
        for node in nodes(number) {
            datagram.extend(node_hash(node, &hash(content, node)));
        }
        datagram.extend(data(number, number, 0, bytes));
        input += &line(0, &datagram);
    }
    let output = answer(input.as_bytes());
    // Behind our HANDSHAKE.
    output.split_once('\n').unwrap().1.to_string()
}

/// ACKs with the delay 0 for these chunks, which come in order and so are a run
/// from 0 on, and a closing line.
fn acknowledged(count: u32, closing: &str) -> String {
    let ack = |chunk| format!("00000000070200000000{chunk:08x}0000000000000000\n");
    (0..count).map(ack).collect::<String>() + closing
}

#[test]
fn seven_chunks_with_the_least_hashes() {
    let content: Vec<u8> = (0..7_162).map(|i| (i % 251) as u8).collect();
    let least = |chunk| match chunk {
        0 => vec![3, 5, 9, 2, 12],
        2 => vec![6],
        4 => vec![10],
        _ => vec![],
    };
    let output = downloaded(&content, least);
    assert_eq!(output, acknowledged(7, "ff0007\n"));
    // One fewer with chunk 4: it is not taken, nor is chunk 5 then.
    let output = downloaded(&content, |chunk| match chunk {
        4 => vec![],
        other => least(other),
    });
    let [.., four, five, _, closing] = output.lines().collect::<Vec<_>>()[..] else {
        panic!("{output}");
    };
    assert_eq!([four, five, closing], ["09", "09", "f00005"]);
}

#[test]
fn thirty_two_chunks_are_the_most() {
    // 21
    let content: Vec<u8> = (0..32_768).map(|i| (i % 241) as u8).collect();
    let output = downloaded(&content, |chunk| tree::sending_order(32, chunk));
    assert_eq!(output, acknowledged(32, "ff0020\n"));
}
