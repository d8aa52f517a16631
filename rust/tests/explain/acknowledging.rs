//! What the ACK of a taken chunk names, in words and in numbers. By 02, No. 2, it is the biggest complete interval that
//! covers the chunk: under ranges the longest run of held chunks, under bins the largest whole subtree inside the pack.

use crate::support::{rows, File, Server, Trace};
use ppspp::Addressing::{self, Bins, Ranges};

/// Chunks of seven as they come: a gap, which is filled; the first one again; the last one; the rest, and the last one
/// again.
const CHUNKS: [u32; 9] = [0, 2, 1, 0, 6, 4, 5, 3, 6];

/// The places of those that come for the second time.
const AGAIN: [usize; 2] = [3, 8];

/// What their ACKs name under ranges, by hand.
const RUNS: [&str; 9] = [
    "chunk 0",
    "chunk 2",
    "0..2 (run of 3)",
    "0..2 (run of 3)",
    "chunk 6",
    "chunk 4",
    "4..6 (run of 3)",
    "0..6 (run of 7)",
    "0..6 (run of 7)",
];

/// And under bins: the nodes over 4..7 and 0..7, bins 11 and 7, are not inside the pack.
const SUBTREES: [&str; 9] = [
    "chunk 0 (bin 0)",
    "chunk 2 (bin 4)",
    "0..1 (bin 1, 2 chunks)",
    "0..1 (bin 1, 2 chunks)",
    "chunk 6 (bin 12)",
    "chunk 4 (bin 8)",
    "4..5 (bin 9, 2 chunks)",
    "0..3 (bin 3, 4 chunks)",
    "chunk 6 (bin 12)",
];

/// A trace in which chunks of seven come.
fn trace(addressing: Addressing, chunks: &[u32]) -> Trace {
    let mut server = Server::new(addressing, 7_162);
    let trace = server.trace();
    chunks.iter().fold(trace, |trace, &chunk| {
        trace.datagram(&server.written(chunk))
    })
}

/// Asserts what is told of each chunk.
fn told(addressing: Addressing, named: [&str; 9]) {
    let text = trace(addressing, &CHUNKS).run(&[]).text;
    let effects = rows(&text)
        .into_iter()
        .filter(|row| row.starts_with("effect    "));
    // The first is that a channel was opened.
    let effects: Vec<String> = effects.skip(1).collect();
    let wanted = CHUNKS
        .iter()
        .zip(named)
        .enumerate()
        .map(|(place, (chunk, named))| {
            let stored = if AGAIN.contains(&place) {
                format!("chunk {chunk} was held already and is right again, nothing stored")
            } else {
                format!("stored chunk {chunk}")
            };
            let whole = if place == 7 {
                "; the pack is whole"
            } else {
                ""
            };
            format!("effect    {stored}; acknowledges {named} to the peer's channel 17{whole}")
        });
    assert_eq!(effects, wanted.collect::<Vec<_>>());
    assert!(text.lines().all(|row| row.len() <= 100), "{text}");
}

#[test]
fn runs_under_ranges() {
    told(Ranges, RUNS);
}

#[test]
fn subtrees_under_bins() {
    told(Bins, SUBTREES);
}

/// The field of each line of the JSON form.
fn numbers(trace: &Trace, more: &[&File]) -> Vec<String> {
    let more = more.iter().map(|file| file.as_ref());
    let arguments: Vec<_> = more.chain(["--json".as_ref()]).collect();
    let text = trace.run(&arguments).text;
    let fields = text.split("\"acknowledged\": ").skip(1);
    let values = fields.map(|rest| rest.split(", \"reply\": ").next().expect("it follows"));
    values.map(String::from).collect()
}

#[test]
fn json_has_the_numbers() {
    let came = [2, 1, 0, 1];
    let object = |first, last, count| {
        format!("{{\"first\": {first}, \"last\": {last}, \"chunks\": {count}}}")
    };
    // The first line of either opens a channel.
    let none = "null".to_string();
    let wanted = [
        none.clone(),
        object(2, 2, 1),
        object(1, 2, 2),
        object(0, 2, 3),
        object(0, 2, 3),
    ];
    assert_eq!(numbers(&trace(Ranges, &came), &[]), wanted);
    let object = |first, last, bin, count| {
        format!("{{\"first\": {first}, \"last\": {last}, \"bin\": {bin}, \"chunks\": {count}}}")
    };
    let both = object(0, 1, 1, 2);
    let wanted = [
        none,
        object(2, 2, 4, 1),
        object(1, 1, 2, 1),
        both.clone(),
        both,
    ];
    assert_eq!(numbers(&trace(Bins, &came), &[]), wanted);
}

/// The last line is a keepalive: it has no ACK.
#[test]
fn other_lines_have_none() {
    let trace = trace(Ranges, &[3]).take(&[]);
    let one = "{\"first\": 3, \"last\": 3, \"chunks\": 1}";
    assert_eq!(numbers(&trace, &[]), ["null", one, "null"]);
    // An output that has the chunk refused says nothing of an ACK.
    let output = File::new("00\n05\n00\nf00000\n");
    assert_eq!(numbers(&trace, &[&output]), ["null"; 3]);
}

/// An output of a program that acknowledges the chunk alone, as 01 had it.
#[test]
fn ack_is_that_of_this_library() {
    let trace = trace(Ranges, &[2, 1]);
    let handshake = format!(
        "00 00000011 00 00000001 00010101020020 {} 0301 0402 0602 09 00000400 ff",
        &trace.lines[0][..64]
    );
    let ack = |first, last| format!("00 00000011 02 {first:08x} {last:08x} 0000000000000000");
    let run = |named: &str| {
        let output = format!("{handshake}\n{}\n{named}\nf00002\n", ack(2, 2)).replace(' ', "");
        trace.run(&[File::new(output).as_ref()])
    };
    let ran = run(&ack(1, 1));
    assert_eq!(ran.status, Some(1), "{}", ran.text);
    let effect = "effect    stored chunk 1; acknowledges 1..2 (run of 2) to the peer's channel 17";
    let reply = "reply     to channel 17: ACK of chunk 1, delay 0";
    let other = "the output's reply is another than this library's";
    let told = format!("{effect}\n{reply}\nDIFFERENT {other}: ");
    assert!(ran.text.contains(&told), "{}", ran.text);
    assert_eq!(run(&ack(1, 2)).status, Some(0));
}
