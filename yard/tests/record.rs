//! The record counts what is taken in, and sees what is stored.

use crate::support::{chunks, chunks_under, content, spoilt, van};
use ppspp::Addressing;
use yard::checks::Pack;
use yard::datagram::{Attack, Origin};
use yard::record::{chunk_of, Record};

#[test]
fn a_true_chunk_is_counted_as_true() {
    let (order, written) = chunks();
    let (mut store, mut record) = (van(order), Record::new(Pack::new(content()), 1));
    let origin = Origin::Attacker(Attack::Replay);
    let answer = record.take(&mut store, (9, 0), &written[1], origin);
    assert_eq!(answer.stored, Some(1));
    assert!(answer.reply.is_ok_and(|ack| !ack.is_empty()));
    let taken = record.tally.taken(origin);
    assert_eq!(
        (taken.stored, taken.stored_bad, taken.answers[0]),
        (1, 0, 1)
    );
    assert_eq!((record.tally.compared, record.tally.bad_bytes), (1, 0));
}

/// The record's pack differs from the server's in two bytes of chunk 1, so to the record the chunk is false.
#[test]
fn a_false_chunk_is_counted_as_false() {
    let (order, written) = chunks();
    let mut other = content();
    other[1_024] ^= 1;
    other[2_047] ^= 1;
    let (mut store, mut record) = (van(order), Record::new(Pack::new(other), 1));
    let origin = Origin::Attacker(Attack::WrongBytes);
    record.take(&mut store, (9, 0), &written[1], origin);
    let taken = record.tally.taken(origin);
    assert_eq!((taken.stored, taken.stored_bad), (0, 1));
    assert_eq!(record.tally.bad_bytes, 2);
}

/// A chunk that is held already is compared again, so bytes that went bad since are seen.
#[test]
fn a_held_chunk_is_compared_again() {
    let (order, written) = chunks();
    let (mut store, mut record) = (van(order), Record::new(Pack::new(content()), 1));
    record.take(&mut store, (9, 0), &written[0], Origin::Honest);
    let mut bad = spoilt(&store, |rooms| rooms.chunks[500] ^= 1);
    let answer = record.take(&mut bad, (9, 0), &written[0], Origin::Honest);
    assert_eq!((answer.stored, record.tally.bad_bytes), (None, 1));
    record.compare_all(&bad);
    assert_eq!(record.tally.bad_bytes, 2);
    assert_eq!(record.tally.taken(Origin::Honest).stored, 1);
}

/// By 01: a chunk with a wrong byte is refused with 10, a datagram of three bytes with 1.
#[test]
fn refusals_are_counted_by_number() {
    let (order, written) = chunks();
    let (mut store, mut record) = (van(order), Record::new(Pack::new(content()), 1));
    let mut wrong = written[0].clone();
    *wrong.last_mut().expect("it has bytes") ^= 1;
    record.take(&mut store, (9, 0), &wrong, Origin::Damaged);
    record.take(&mut store, (9, 0), &wrong[..3], Origin::Damaged);
    let answers = record.tally.taken(Origin::Damaged).answers;
    assert_eq!(
        (answers[10], answers[1], answers.iter().sum()),
        (1, 1, 2u64)
    );
    assert_eq!(
        (record.tally.compared, record.tally.changed_by_refusal),
        (0, 0)
    );
}

/// Three chunks, of which one comes twice: by 02, No. 2, an ACK names the run, or under bins the subtree, around its
/// chunk. Chunks 0 and 1 are bin 1; bin 3 is over a fourth chunk too.
#[test]
fn chunks_are_counted_by_what_acks_name() {
    for (addressing, named) in [
        (Addressing::Ranges, [1, 1, 3, 3]),
        (Addressing::Bins, [1, 1, 2, 2]),
    ] {
        let (order, written) = chunks_under(addressing);
        let (mut store, mut record) = (van(order), Record::new(Pack::new(content()), 1));
        for (acks, (chunk, named)) in (1..).zip([0, 2, 1, 1].into_iter().zip(named)) {
            let before = record.tally.acknowledged;
            let answer = record.take(&mut store, (9, 0), &written[chunk], Origin::Honest);
            record.note_ack(addressing, &answer.reply.expect("a true chunk"));
            assert_eq!(record.tally.acknowledged - before, named, "chunk {chunk}");
            assert_eq!(record.tally.acks, acks);
        }
        // 8 of 4, and 6 of 4.
        let mean = if addressing == Addressing::Bins { 1 } else { 2 };
        assert_eq!(record.tally.chunks_an_ack(), mean);
    }
}

/// Only ACKs count, whatever else a reply may be.
#[test]
fn other_replies_are_no_acks() {
    let mut record = Record::new(Pack::new(content()), 1);
    assert_eq!(record.tally.chunks_an_ack(), 0);
    let mut store = van(chunks().0);
    let composer = store.compose(5).and_then(|c| c.have(0, 2));
    record.note_ack(Addressing::Ranges, composer.expect("it fits").finish());
    record.note_ack(Addressing::Ranges, &[]);
    assert_eq!((record.tally.acks, record.tally.acknowledged), (0, 0));
}

#[test]
fn the_trace_depends_on_every_datagram() {
    let (order, written) = chunks();
    let trace = |now, datagrams: &[Vec<u8>]| {
        let (mut store, mut record) = (van(order), Record::new(Pack::new(content()), 1));
        for datagram in datagrams {
            record.take(&mut store, (now, 0), datagram, Origin::Honest);
        }
        record.trace
    };
    assert_eq!(trace(1, &written), trace(1, &written));
    assert_ne!(trace(1, &written), trace(2, &written));
    assert_ne!(trace(1, &written), trace(1, &written[..2]));
}

#[test]
fn the_chunk_of_a_datagram_is_the_one_that_its_data_names() {
    for addressing in [Addressing::Ranges, Addressing::Bins] {
        let (_, written) = chunks_under(addressing);
        assert_eq!(chunk_of(addressing, &written[2]), Some(2));
        assert_eq!(chunk_of(addressing, &[0, 0, 0, 17, 10]), None);
    }
}
