//! The node that a refused chunk names (02, No. 3), in words and in JSON, under each addressing.

use crate::support::{refused, File, Server, Trace};
use ppspp::Addressing::{self, Bins, Ranges};

/// A trace of seven chunks, and the datagram of chunk 0: hashes of 0..3, 2..3, 4..5, 1 and 6, then the chunk.
fn chunk_0(addressing: Addressing) -> (Trace, Vec<u8>) {
    let mut server = Server::new(addressing, 7_162);
    (server.trace(), server.written(0))
}

/// The datagram without its first hash, with a byte of that changed, and with the last byte of the chunk changed.
fn garbled(addressing: Addressing, datagram: &[u8]) -> [Vec<u8>; 3] {
    // Behind the destination, a type and a bin or a range.
    let hash = if addressing == Bins { 9 } else { 13 };
    let changed = |place: usize| {
        let mut datagram = datagram.to_vec();
        datagram[place] ^= 1;
        datagram
    };
    let without = [&datagram[..4], &datagram[hash + 32..]].concat();
    [without, changed(hash), changed(datagram.len() - 1)]
}

#[test]
fn nodes_in_words() {
    let peak =
        "the hash of the peak over chunks 0..3 (node 3), which came with it and leads to the root";
    let climb = format!("chunk 0 with the hashes of 1, 2..3 does not give {peak}");
    let wanted = [
        (
            "09",
            "chunk 0 refused: the hash of chunks 0..3 (node 3) is missing",
        ),
        (
            "0a",
            "the peaks that came, 0..3, 4..5, 6, do not give the root (node 7)",
        ),
        ("0a", &climb),
    ];
    for addressing in [Bins, Ranges] {
        let (trace, datagram) = chunk_0(addressing);
        for (datagram, (number, reason)) in garbled(addressing, &datagram).iter().zip(wanted) {
            refused(&trace.clone().datagram(datagram), number, reason);
        }
    }
}

/// The field of each line of the JSON form.
fn nodes(trace: &Trace, more: &[&File]) -> Vec<String> {
    let more = more.iter().map(|file| file.as_ref());
    let arguments: Vec<_> = more.chain(["--json".as_ref()]).collect();
    let text = trace.run(&arguments).text;
    let fields = text.split("\"node\": ").skip(1);
    let values = fields.map(|rest| rest.split(", \"reason\": ").next().expect("it follows"));
    values.map(String::from).collect()
}

#[test]
fn json_has_the_numbers() {
    for addressing in [Bins, Ranges] {
        let (trace, datagram) = chunk_0(addressing);
        let [without, peaks, chunk] = garbled(addressing, &datagram);
        let trace = [without, peaks, chunk.clone(), datagram, chunk, vec![0; 3]]
            .iter()
            .fold(trace, |trace, datagram| trace.datagram(datagram));
        // A channel is opened; three refusals; the chunk is stored, comes again with another byte, and three bytes.
        let three = "{\"number\": 3, \"first\": 0, \"last\": 3}";
        let root = "{\"number\": 7, \"first\": 0, \"last\": 7}";
        let leaf = "{\"number\": 0, \"first\": 0, \"last\": 0}";
        let wanted = ["null", three, root, three, "null", leaf, "null"];
        assert_eq!(nodes(&trace, &[]), wanted);
        // An output that has the hash missing in place of wrong, and the other way round, names none.
        let output = File::new("00\n0a\n09\n0a\n00\n00\n01\nf00001\n");
        let wanted = ["null", "null", "null", three, "null", "null", "null"];
        assert_eq!(nodes(&trace, &[&output]), wanted);
    }
}
