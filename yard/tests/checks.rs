//! The checks: each of them can fail.

use crate::support::{built, chunks, content, spoilt, van};
use ppspp::{Addressing, Rooms, Store};
use yard::checks::{differences, Pack, Snapshot, Verdict};

fn whole() -> (Pack, Store) {
    (Pack::new(content()), built(Addressing::Ranges))
}

#[test]
fn a_whole_store_is_good() {
    let (pack, store) = whole();
    assert_eq!(pack.chunks(), 3);
    let good = Verdict {
        missing: 0,
        bad_bytes: 0,
        count_is_right: true,
    };
    assert_eq!(pack.verdict(&store), good);
    assert!(good.is_good());
}

/// Two bytes of chunk 0 and the last one of chunk 2.
#[test]
fn bad_bytes_are_counted() {
    let (pack, store) = whole();
    let spoilt = spoilt(&store, |rooms| {
        for place in [3, 1_023, 2_499] {
            rooms.chunks[place] ^= 0x40;
        }
    });
    let of_chunks: Vec<u64> = (0..3)
        .map(|c| pack.bad_bytes_of_chunk(&spoilt, c))
        .collect();
    assert_eq!(of_chunks, [2, 0, 1]);
    assert_eq!(pack.bad_bytes(&spoilt), 3);
    assert!(!pack.verdict(&spoilt).is_good());
}

/// Bytes of chunks that are not held are no matter.
#[test]
fn a_missing_chunk_is_missing_and_not_bad() {
    let (pack, store) = whole();
    let spoilt = spoilt(&store, |rooms| {
        rooms.map[0] = 0b101;
        rooms.chunks[1_024] ^= 1;
    });
    let verdict = pack.verdict(&spoilt);
    assert_eq!((verdict.missing, verdict.bad_bytes), (1, 0));
    assert!(verdict.count_is_right && !verdict.is_good());
}

/// A state without an order is asked in vain.
#[test]
fn a_wrong_count_is_noticed() {
    let (pack, store) = whole();
    let spoilt = spoilt(&store, |rooms| rooms.state[0] = 0);
    let verdict = pack.verdict(&spoilt);
    assert!(!verdict.count_is_right && !verdict.is_good());
}

#[test]
fn differences_are_counted_by_place() {
    assert_eq!(differences(b"abcd", b"abcd"), 0);
    assert_eq!(differences(b"abcd", b"xbcx"), 2);
    assert_eq!(differences(b"abcd", b"xb"), 3);
    assert_eq!(differences(b"", b"xyz"), 3);
}

#[test]
fn a_snapshot_notices_each_room() {
    let (_, store) = whole();
    let before = Snapshot::of(&store);
    assert!(before.stands(&store));
    let changes: [fn(Rooms<'_>); 6] = [
        |rooms| rooms.state[73] ^= 1,
        |rooms| rooms.map[0] ^= 1,
        |rooms| rooms.hashes[63] ^= 1,
        |rooms| rooms.trusted[0] ^= 1,
        |rooms| rooms.has[15] ^= 1,
        |rooms| rooms.wants[15] ^= 1,
    ];
    for change in changes {
        assert!(!before.stands(&spoilt(&store, change)));
    }
}

#[test]
fn a_snapshot_tells_new_chunks_and_vanished_ones() {
    let (order, written) = chunks();
    let mut store = van(order);
    let before = Snapshot::of(&store);
    store.take(0, 0, &written[2]).expect("a true chunk");
    assert_eq!(before.new_chunks(&store), [2]);
    assert_eq!(before.vanished(&store), 0);
    let without = spoilt(&store, |rooms| rooms.map[0] = 0);
    assert_eq!(Snapshot::of(&store).vanished(&without), 1);
}
