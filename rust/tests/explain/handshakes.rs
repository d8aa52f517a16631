//! Numbers 3 to 6: HANDSHAKE messages, their options, and channels.

use crate::support::{refused, Trace, ABC, PEER};
use second::packets::{closing, fixed, handshake, have, to, CHOKE};

/// The profile's options around the root of `abc`, and the same as digits without End.
fn options() -> Vec<u8> {
    let mut root = Vec::new();
    second::hex::decode(ABC.as_bytes(), &mut root).expect("digits");
    fixed(&root.try_into().expect("32 bytes"))
}

/// A HANDSHAKE to a channel, refused.
fn opening(to_channel: u32, message: &[u8], answer: &str, reason: &str) {
    let trace = Trace::abc().datagram(&to(to_channel, &[message]));
    refused(&trace, answer, reason);
}

#[test]
fn handshake_not_alone() {
    let trace = Trace::abc().take(&[&CHOKE, &closing()]);
    let reason =
        "message 2 at byte 5 (digit 27): HANDSHAKE must be alone, and stands behind 1 message";
    refused(&trace, "03", reason);
    let with_more = [handshake(5, &options()), vec![7, 7]].concat();
    let reason =
        "message 1 at byte 4 (digit 25): HANDSHAKE must be alone, and has 2 bytes behind it";
    opening(0, &with_more, "03", reason);
}

#[test]
fn handshake_not_sound() {
    let at = "message 1 at byte 4 (digit 25): HANDSHAKE is from channel 0";
    opening(0, &closing(), "03", &format!("{at} to channel 0"));
    let closing = handshake(0, &options());
    opening(
        1,
        &closing,
        "03",
        &format!("{at}, so it closes, but has options"),
    );
    let reason = "channel 1 is open to the peer's channel 17, not to its channel 18";
    opening(1, &handshake(18, &options()), "03", reason);
}

/// The options with some bytes put in the place of others.
fn replaced(place: usize, count: usize, with: &[u8]) -> Vec<u8> {
    let mut options = options();
    options.splice(place..place + count, with.iter().copied());
    handshake(5, &options)
}

#[test]
fn options_of_no_sound_layout() {
    let of = |message: &[u8], rule: &str| {
        let reason = format!("message 1 at byte 4 (digit 25): {rule}");
        opening(0, message, "02", &reason);
    };
    of(
        &handshake(5, &[])[..4],
        "HANDSHAKE is cut short: 3 of 4 bytes stand behind its type",
    );
    of(&handshake(5, &[]), "its options have no End");
    of(&handshake(5, &[0, 1]), "its options have no End");
    of(&handshake(5, &[0]), "option 0 (version) is cut short");
    of(
        &handshake(5, &[0, 1, 0, 1, 255]),
        "option 0 (version) comes twice",
    );
    of(
        &handshake(5, &[3, 1, 1, 1, 255]),
        "option 1 (least version) stands behind option 3",
    );
    of(&handshake(5, &[0, 1, 10, 255]), "option 10 is unknown");
    of(
        &handshake(5, &[2, 0, 32, 9]),
        "option 2 (swarm ID) is cut short",
    );
    of(
        &handshake(5, &[8, 3, 9, 9]),
        "option 8 (supported messages) is cut short",
    );
}

#[test]
fn options_missing_or_other() {
    let of = |message: &[u8], reason: &str| opening(0, message, "04", reason);
    of(
        &handshake(5, &[255]),
        "no option came, the profile's seven are expected",
    );
    of(
        &replaced(0, 2, &[]),
        "option 0 (version) is missing, expected is 1",
    );
    of(
        &replaced(1, 1, &[2]),
        "option 0 (version) is 2, expected is 1",
    );
    // The swarm ID's code stands at place 4, its 32 bytes at 7, and the chunk size's four at 46.
    of(&replaced(4, 35, &[]), "option 2 (swarm ID) is missing");
    of(
        &replaced(46, 4, &[0, 0, 8, 0]),
        "option 9 (chunk size) is 2,048, expected is 1,024",
    );
    of(
        &replaced(6, 2, &[31]),
        "option 2 (swarm ID) has 31 bytes, a root has 32",
    );
    let other = format!(
        "option 2 (swarm ID) is not this pack's root, it is 00{}",
        &ABC[2..]
    );
    of(&replaced(7, 1, &[0]), &other);
}

#[test]
fn options_added_and_two_others() {
    let of = |message: &[u8], reason: &str| opening(0, message, "04", reason);
    // Behind the hash function, at place 43.
    of(
        &replaced(43, 0, &[5, 0]),
        "option 5 (live signature) came, the profile is without it",
    );
    let two = "option 1 (least version) is 3, expected is 1; option 3 (integrity method) is 0, expected is 1";
    let mut both = replaced(3, 1, &[3]);
    // Behind the type and the source, at place 40.
    both[5 + 40] = 0;
    of(&both, two);
}

#[test]
fn no_channel() {
    let never = "there was never a channel 34; open: 1 (peer 17)";
    refused(&Trace::abc().datagram(&to(34, &[])), "05", never);
    let zero = Trace::abc().datagram(&to(0, &[&have(0, 0)]));
    refused(&zero, "05", "only a HANDSHAKE may go to channel 0");
    // Line 2 opens, line 3 closes.
    let closed = Trace::abc().take(&[&closing()]).take(&[]);
    let reason = "channel 1 was closed by line 3; none is open";
    refused(&closed, "05", reason);
    let another = Trace::abc().opened(9).take(&[&closing()]).take(&[]);
    let reason = "channel 1 was closed by line 4; open: 2 (peer 9)";
    refused(&another, "05", reason);
}

#[test]
fn no_free_row() {
    let full = (1..16).fold(Trace::abc(), |trace, _| trace.opened(PEER));
    let channels: Vec<String> = (1..=16).map(|id| format!("{id} (peer 17)")).collect();
    let open = channels.join(", ");
    let reason = format!("no row is free for the peer's channel 40; open: {open}");
    refused(&full.opened(40), "06", &reason);
}
