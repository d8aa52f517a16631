//! Line one: traps 1 to 7.

use super::script::*;
use super::Named;
use crate::packets::*;

/// The words about bad first lines.
const BAD: &str = "A missing or bad first line ...: `0c` and nothing more";

pub fn traces() -> Vec<Named> {
    let mut all = vec![no_input(), longest(), upper_case()];
    all.extend(bad_lengths());
    all.extend(bad_digits());
    all
}

fn no_input() -> Named {
    let script = Script::without_order(abc());
    script.named("0c", "no-input", "no input at all (1)", BAD)
}

fn longest() -> Named {
    let mut script = Script::new(pattern(32_768));
    script.take(5, 1, &[]);
    let words = "the program takes L up to 32,768";
    script.named(
        "f00000",
        "order-length-32768",
        "L=32,768 is taken (5)",
        words,
    )
}

fn upper_case() -> Named {
    let mut script = Script::without_order(abc());
    let order = script.pack.order_line().to_uppercase();
    script.put(order.as_bytes());
    script.open(PEER);
    let shows = "an order in upper case, the reply in lower (7)";
    let words = "either case read, lower case written";
    script.named("f00000", "order-upper-case", shows, words)
}

/// A bad line one with lines behind it, which are not read.
fn bad(line: impl AsRef<[u8]>, name: &'static str, shows: &'static str) -> Named {
    let mut script = Script::without_order(abc());
    let root = script.pack.root;
    script.put(line.as_ref());
    script.put(frame(0, &to(0, &[&handshake(PEER, &fixed(&root))])).as_bytes());
    script.put(b"00");
    script.named("0c", name, shows, BAD)
}

fn bad_lengths() -> Vec<Named> {
    let order = abc().order_line();
    let with = |length: &str| format!("{}{length}", &order[..64]);
    vec![
        bad(with("00000000"), "order-length-0", "L=0 (4)"),
        bad(with("00008001"), "order-length-32769", "L=32,769 (5)"),
        bad(
            with("00080000"),
            "order-length-524288",
            "the longest order is not for replay (5)",
        ),
    ]
}

fn bad_digits() -> Vec<Named> {
    let order = abc().order_line();
    let returned = format!("{order}\r");
    let longer = format!("{order}00");
    let other = order.replace('b', "g");
    let shows_return = "a carriage return behind 72 digits (3)";
    let shows_shorter = "71 digits, then good lines (6)";
    vec![
        bad("", "order-empty", "an empty first line"),
        bad(returned, "order-carriage-return", shows_return),
        bad(&order[1..], "order-71-digits", shows_shorter),
        bad(longer, "order-74-digits", "74 digits"),
        bad(other, "order-other-character", "g in the root"),
        bad([b'0'; 5_000], "order-long", "a first line of 5,000 digits"),
    ]
}
