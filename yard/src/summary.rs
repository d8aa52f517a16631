//! The summary of a run: what was sent, how it was answered, what was stored, and whether every check holds.

use crate::checks::Verdict;
use crate::datagram::Origin;
use crate::node::SERVER;
use crate::random::Rate;
use crate::record::Record;
use crate::run::{Settings, Yard};
use crate::tally::ANSWERS;
use crate::timing::SECOND;
use ppspp::{Addressing, Refusal};
use std::time::Duration;

/// Whether every van is whole, and every check holds.
pub fn is_good(yard: &Yard) -> bool {
    yard.is_done() && yard.verdicts().iter().all(Verdict::is_good) && failures(&yard.record) == 0
}

/// How often a check failed during the run.
fn failures(record: &Record) -> u64 {
    let tally = &record.tally;
    let bad = tally.sum(|_| true, |taken| taken.stored_bad);
    tally.bad_bytes + tally.vanished + tally.changed_by_refusal + bad
}

/// The whole summary. Without its wall time it is the same in each run of the same settings.
pub fn summary(settings: &Settings, yard: &Yard, wall: Duration) -> String {
    let mut text = format!("{}\n\n", title(settings));
    times(&mut text, yard, wall);
    radio(&mut text, yard);
    answers(&mut text, &yard.record);
    origins(&mut text, settings, &yard.record);
    nodes(&mut text, yard);
    checks(&mut text, yard);
    text
}

/// The settings in a line; ranges are not told.
pub fn title(settings: &Settings) -> String {
    let faults = &settings.faults;
    let attacker = if settings.attacker { "on" } else { "off" };
    let bins = match settings.addressing {
        Addressing::Bins => ", bins",
        _ => "",
    };
    format!(
        "{} vans, {} chunks, seed {}, loss {} %, duplicate {} %, reorder {} %, truncate {} %, flip {} %, attacker \
         {attacker}{bins}",
        settings.vans,
        settings.chunks,
        settings.seed,
        per_cent(faults.loss),
        per_cent(faults.duplicate),
        per_cent(faults.reorder),
        per_cent(faults.truncate),
        per_cent(faults.flip),
    )
}

/// A rate in per cent, without needless zeros.
fn per_cent(rate: Rate) -> String {
    let text = format!("{}.{:04}", rate.0 / 10_000, rate.0 % 10_000);
    text.trim_end_matches('0').trim_end_matches('.').into()
}

/// Lines of words and numbers under a heading.
fn lines(text: &mut String, heading: &str, lines: &[(&str, u64)]) {
    *text += &format!("{heading}\n");
    for (words, number) in lines {
        *text += &format!("  {words:<46}{number:>10}\n");
    }
    text.push('\n');
}

fn times(text: &mut String, yard: &Yard, wall: Duration) {
    let (seconds, rest) = (yard.now / SECOND, yard.now % SECOND);
    *text += &format!("simulated time {seconds}.{rest:06} s\n");
    *text += &format!("wall time      {:.3} s\n", wall.as_secs_f64());
    *text += &format!("trace          {:016x}\n\n", yard.record.trace);
}

fn radio(text: &mut String, yard: &Yard) {
    let (counts, tally) = (&yard.radio.counts, &yard.record.tally);
    let sent = [
        ("sent", counts.sent),
        ("lost", counts.lost),
        ("duplicated", counts.duplicated),
        ("reordered", counts.reordered),
        ("truncated", counts.truncated),
        ("flipped", counts.flipped),
        ("arrived and taken in", tally.arrived),
        ("arrived at a van that was away", tally.to_absent),
        ("under way at the end", yard.under_way()),
        ("bytes sent", counts.bytes),
    ];
    lines(text, "Datagrams on the radio", &sent);
}

/// How often each number was answered, with its words.
fn answers(text: &mut String, record: &Record) {
    *text += "Answers to datagrams, the loader's own included\n";
    for number in 0..ANSWERS {
        let times = record.tally.sum(|_| true, |taken| taken.answers[number]);
        let refusal = Refusal::of(number as u32);
        let words = refusal.map_or("done".into(), |refusal| refusal.to_string());
        *text += &format!("  {number:>2} {times:>9}  {words}\n");
    }
    text.push('\n');
}

/// The same by origin, and what was stored.
fn origins(text: &mut String, settings: &Settings, record: &Record) {
    let numbers = (0..ANSWERS).map(|number| number.to_string());
    let heads = numbers.chain(["true".into(), "false".into()]);
    row(text, "Answers by origin", heads);
    for origin in Origin::under(settings.addressing) {
        let taken = record.tally.taken(origin);
        let stored = [&taken.stored, &taken.stored_bad];
        let cells = taken.answers.iter().chain(stored).map(u64::to_string);
        row(text, &format!("  {}", origin.words()), cells);
    }
    *text += "  (true, false: chunks stored with the pack's bytes, and with others)\n\n";
}

/// The widths of the columns of the answers by origin.
const WIDTHS: [usize; ANSWERS + 2] = [8, 6, 7, 6, 6, 7, 6, 6, 6, 6, 7, 4, 4, 4, 6, 8, 6];

/// A row of the answers by origin.
fn row(text: &mut String, words: &str, cells: impl Iterator<Item = String>) {
    *text += &format!("{words:<26}");
    for (cell, width) in cells.zip(WIDTHS) {
        *text += &format!("{cell:>width$}");
    }
    text.push('\n');
}

fn nodes(text: &mut String, yard: &Yard) {
    let tally = &yard.record.tally;
    let done = [
        ("chunks stored", tally.sum(|_| true, |taken| taken.stored)),
        ("ACKs sent", tally.acks),
        ("  chunks that they name, in all", tally.acknowledged),
        ("  chunks an ACK, rounded down", tally.chunks_an_ack()),
        ("chunks sent by the server", tally.chunks_by_server),
        ("chunks sent by vans", tally.chunks_by_vans),
        ("retransmissions", tally.retransmissions()),
        ("  of chunks", tally.chunks_again),
        ("  of requests for a chunk", tally.requests_again),
        ("  of HANDSHAKEs", tally.handshakes_again),
        ("drop-outs", tally.drop_outs),
        ("channels called", tally.called),
        ("  of them reopened", tally.reopened),
        ("calls that the store refused", tally.calls_refused),
        ("channels opened for a caller", tally.answered),
        ("channels closed by the loader", tally.closed),
        (
            "channels closed by peers or the attacker",
            tally.closed_by_peer,
        ),
        ("calls given up", tally.given_up),
    ];
    lines(text, "Vans and server", &done);
}

fn checks(text: &mut String, yard: &Yard) {
    let (tally, verdicts) = (&yard.record.tally, yard.verdicts());
    let attacker = |origin| matches!(origin, Origin::Attacker(_));
    let bad_at_end = verdicts.iter().map(|verdict| verdict.bad_bytes).sum();
    let true_chunks = tally.sum(attacker, |taken| taken.stored);
    let false_chunks = tally.sum(attacker, |taken| taken.stored_bad);
    let wrong_counts = verdicts.iter().filter(|verdict| !verdict.count_is_right);
    let found = [
        ("chunks compared with the pack", tally.compared),
        ("bad bytes, ever", tally.bad_bytes),
        ("bad bytes at the end", bad_at_end),
        ("chunks that vanished", tally.vanished),
        ("refusals that changed a room", tally.changed_by_refusal),
        ("wrong counts of held chunks", wrong_counts.count() as u64),
        ("attacker stored: true chunks", true_chunks),
        ("attacker stored: false chunks", false_chunks),
    ];
    lines(text, "Checks", &found);
    let vans = &verdicts[SERVER + 1..];
    let whole = vans.iter().filter(|verdict| verdict.is_good()).count();
    let word = if is_good(yard) { "GOOD" } else { "FAILED" };
    *text += &format!(
        "{word}: {whole} of {} vans are whole, byte for byte\n",
        vans.len()
    );
}
