//! Where lines end: traps 2 and 9 to 11.

use super::script::*;
use super::Named;

pub fn traces() -> Vec<Named> {
    [behind_an_order(), behind_a_datagram()]
        .into_iter()
        .flatten()
        .collect()
}

fn behind_an_order() -> Vec<Named> {
    let mut bare = Script::new(abc());
    bare.drop_line_feed();
    let mut only = Script::new(abc());
    only.line("", "0f");
    only.line("", "0f");
    vec![
        named(
            bare,
            "order-without-line-feed",
            "an order alone, without line feed (2)",
        ),
        named(
            Script::new(abc()),
            "order-alone",
            "an order alone, with line feed (9)",
        ),
        named(only, "line-feeds-alone", "an order and two empty lines"),
    ]
}

fn behind_a_datagram() -> Vec<Named> {
    let last = Script::opened(abc());
    let mut without = Script::opened(abc());
    without.drop_line_feed();
    let mut bad = Script::opened(abc());
    bad.line("0", "0f");
    bad.drop_line_feed();
    let mut two = Script::opened(abc());
    two.line("", "0f");
    vec![
        named(
            last,
            "line-feed-at-end",
            "no line behind the last line feed (9)",
        ),
        named(
            without,
            "no-line-feed-at-end",
            "a last datagram without line feed (10)",
        ),
        named(bad, "bad-line-at-end", "a last bad line without line feed"),
        named(
            two,
            "two-line-feeds-at-end",
            "the empty line between two line feeds (11)",
        ),
    ]
}

/// A store without a chunk.
fn named(script: Script, name: &'static str, shows: &'static str) -> Named {
    let words = "A line ends at a line feed or at the end of input; nothing after the last line feed is no line";
    script.named("f00000", name, shows, words)
}
