//! The texts, and the numbers in them.

use super::*;
use crate::answer::DONE;
use crate::wire::{self, Addressing};

#[test]
fn lines_are_parsed() {
    let text = "# heading\n\n0 00000005 0a*3 # three\n1 # none\n3 00 01ff#\n";
    let expected = [
        (3, 0, vec![0, 0, 0, 5, 10, 10, 10]),
        (4, 1, vec![]),
        (5, 3, vec![0, 1, 255]),
    ];
    let expected = expected.map(|(line, number, datagram)| HandMade {
        line,
        number,
        datagram,
    });
    assert_eq!(parse(text).unwrap(), expected);
}

#[test]
fn lines_that_cannot_be_parsed_are_named() {
    for bad in [
        "0", "x 00", "0 0", "0 0g", "0 0A", "0 00*", "0 00*x", "0 *3", "0 0000*3", " 0 00",
    ] {
        let error = parse(&format!("0 00\n{bad}\n")).unwrap_err().to_string();
        assert_eq!(error, "line 2: not `NUMBER HEX # why`", "{bad}");
    }
}

/// The number made by hand is the one that the layout checks give.
fn compare(addressing: Addressing, text: &str, count: usize) {
    let all = parse(text).unwrap();
    assert_eq!(all.len(), count);
    for hand_made in all {
        let found = wire::layout(addressing, &hand_made.datagram, &mut Vec::new());
        let found = found.err().unwrap_or(DONE);
        assert_eq!(found, hand_made.number, "line {}", hand_made.line);
    }
}

#[test]
fn the_hand_made_datagrams() {
    let text = include_str!("../../../tests/wire/datagrams.txt");
    compare(Addressing::Ranges, text, 368);
}

#[test]
fn the_hand_made_datagrams_under_bins() {
    let text = include_str!("../../../tests/wire/bins.txt");
    compare(Addressing::Bins, text, 233);
}
