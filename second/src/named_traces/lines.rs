//! Lines that are no frames, and the shortest and longest that are: traps 8 and
//! 12 to 21.

use super::script::*;
use super::Named;
use crate::packets::*;
use crate::replay::MOST_DIGITS;

/// The words about lines that are no frames.
const NO_FRAME: &str =
    "A line with another character, odd length, under 16 or over 4,112 digits: `0f`";

pub fn traces() -> Vec<Named> {
    vec![
        empty_line(),
        short_datagrams(),
        odd_digits(),
        sizes(),
        most_digits(),
        too_many_digits(),
        long_line(),
        other_characters(),
        prefix_and_spaces(),
        mixed_case(),
        whole_32(),
    ]
}

fn empty_line() -> Named {
    let mut script = Script::opened(abc());
    script.line("", "0f");
    script.open(2);
    let shows = "an empty line between others (8)";
    script.named("f00000", "empty-line", shows, NO_FRAME)
}

fn short_datagrams() -> Named {
    let mut script = Script::opened(abc());
    for length in 0..4 {
        script.datagram(1, &vec![0; length]);
    }
    for digits in 1..16 {
        script.line("0".repeat(digits), "0f");
    }
    script.named(
        "f00000",
        "short-datagrams",
        "16, 18, 20 and 22 digits are datagrams of 0 to 3 bytes: 1; 1 to 15 digits: 0f (12, 13)",
        "datagram under 4 ... bytes; under 16 ... digits: `0f`",
    )
}

fn odd_digits() -> Named {
    let mut script = Script::opened(abc());
    script.line("0".repeat(17), "0f");
    script.line("0".repeat(23), "0f");
    script.line("0000000000000000000000010", "0f");
    script.line("0".repeat(4_111), "0f");
    script.take(0, 1, &[]);
    script.named(
        "f00000",
        "odd-digits",
        "17, 23, 25 and 4,111 digits (14)",
        NO_FRAME,
    )
}

fn sizes() -> Named {
    let mut script = Script::opened(abc());
    script.datagram(1, &[0, 0, 1]);
    script.take(0, 1, &[]);
    script.take(5, 2, &[]);
    script.take(0, 1, &[&[10; 2043]]);
    script.take(0, 1, &[&[11; 2044]]);
    script.named(
        "f00000",
        "sizes",
        "datagrams of 3, 4, 2,047 and 2,048 bytes",
        "Datagram of 3 bytes: 1; 4: 5 or done",
    )
}

fn most_digits() -> Named {
    let mut script = Script::opened(abc());
    script.take(0, 1, &[&[10; 2044]]);
    script.take(5, 2, &[&[10; 2044]]);
    script.take(2, 1, &[&[10; 2043], &REFUSED]);
    script.take(3, 1, &[&[11; 2038], &closing()]);
    script.take(8, 1, &[&data(0, 0, 0, &[0; 2027])]);
    script.named(
        "f00000",
        "most-digits",
        "4,112 digits: a datagram of 2,048 bytes, on its own merits (15)",
        "a datagram is 4 to 2,048 bytes",
    )
}

fn too_many_digits() -> Named {
    let mut script = Script::opened(abc());
    let most = frame(0, &to(1, &[&[10; 2044]]));
    assert_eq!(most.len(), MOST_DIGITS);
    for more in ["0", "0a", "0a0", "0a0a"] {
        script.line(format!("{most}{more}"), "0f");
    }
    script.line(most, "00");
    script.named(
        "f00000",
        "too-many-digits",
        "4,113 to 4,116 digits: never 1 (16)",
        NO_FRAME,
    )
}

fn long_line() -> Named {
    let mut script = Script::opened(abc());
    script.line("0".repeat(200_000), "0f");
    script.stored(0, 0..=0, &[]);
    script.line([0; 10_000], "0f");
    script.take(0, 1, &[]);
    script.named(
        "ff0001",
        "long-line",
        "200,000 digits and 10,000 NULs, and the lines behind them (17)",
        NO_FRAME,
    )
}

fn other_characters() -> Named {
    let mut script = Script::opened(abc());
    let good = frame(0, &to(1, &[]));
    for character in *b"/:@G`g\0\t \r\x0b\x1a\x7f\x80\xb0\xff" {
        for place in [0, 16, 23] {
            let mut line = good.clone().into_bytes();
            line[place] = character;
            script.line(line, "0f");
        }
    }
    script.line(good, "00");
    script.named(
        "f00000",
        "other-characters",
        "characters next to the digits, NUL, tab, space, 8-bit ones, at three places (18)",
        NO_FRAME,
    )
}

fn prefix_and_spaces() -> Named {
    let mut script = Script::opened(abc());
    let good = frame(0, &to(1, &[]));
    script.line(format!("0x{good}"), "0f");
    script.line(format!("{} {}", &good[..16], &good[16..]), "0f");
    script.line(format!(" {good}"), "0f");
    script.line(format!("{good} "), "0f");
    script.line(format!("{good}\r"), "0f");
    script.line(format!("{good}\0"), "0f");
    script.line(format!("{good}  "), "0f");
    script.named(
        "f00000",
        "prefix-and-spaces",
        "0x before, spaces between and around, a carriage return or NUL behind (19)",
        NO_FRAME,
    )
}

fn mixed_case() -> Named {
    let mut script = Script::new(abc());
    let root = script.pack.root;
    let options = fixed(&root);
    let opening = frame(0, &to(0, &[&handshake(0xabcd_ef99, &options)]));
    let reply = crate::hex::encode(&handshake(1, &options));
    let mixed = |line: &str| -> String {
        let case = |(place, digit): (usize, char)| match place % 2 {
            0 => digit.to_ascii_uppercase(),
            _ => digit,
        };
        line.chars().enumerate().map(case).collect()
    };
    script.line(mixed(&opening), &format!("00abcdef99{reply}"));
    let chunk = script.data(0);
    let line = frame(0xabcdef, &to(1, &[&chunk])).to_uppercase();
    script.line(line, &ack_line(0xabcd_ef99, 0..=0, 0x00ab_cdef));
    script.named(
        "ff0001",
        "mixed-case",
        "upper and mixed case read, replies in lower case (20)",
        "either case read, lower case written",
    )
}

fn whole_32() -> Named {
    let mut script = Script::opened(pattern(32_768));
    for chunk in 0..32 {
        script.stored(chunk, 0..=chunk, &least_of_32(chunk));
    }
    script.named(
        "ff0020",
        "whole-32-chunks",
        "L=32,768 in order with the least hashes, closed by ff0020 (21)",
        "the held count (four hexadecimal digits)",
    )
}
