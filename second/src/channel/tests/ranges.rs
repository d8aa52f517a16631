//! Traps 74 to 83, the effects of messages on a channel's rows (trap 111), and
//! the bits of rows.

use super::*;

#[test]
fn traps_74_and_75_destinations() {
    let mut caller = Pack::new(SEVEN).started();
    assert_eq!(caller.number(0, &[&have(0, 0)]), 5);
    assert_eq!(caller.number(6, &[&have(0, 7)]), 5);
    assert_eq!(caller.number(9, &[&have(0, 0)]), 5);
    assert_eq!(caller.number(5, &[&have(0, 7)]), 7);
    assert_eq!(caller.number(5, &[&have(0, 6)]), 0);
}

/// Traps 76 to 78, and "Range 6..6 with N=7 taken, 7..7: 7".
#[test]
fn traps_76_to_78_past_the_end() {
    let mut caller = Pack::new(SEVEN).started();
    for (first, last, number) in [
        (6, 6, 0),
        (7, 7, 7),
        (0, 6, 0),
        (0, 7, 7),
        (0, u32::MAX, 7),
        (u32::MAX, u32::MAX, 7),
    ] {
        assert_eq!(caller.number(5, &[&have(first, last)]), number);
        assert_eq!(caller.number(5, &[&ack(first, last, 1)]), number);
        assert_eq!(caller.number(5, &[&request(first, last)]), number);
        assert_eq!(caller.number(5, &[&cancel(first, last)]), number);
    }
}

/// Traps 79 to 81, A1, A2 and A7.
#[test]
fn traps_79_to_81_nodes_past_the_end() {
    let pack = Pack::new(SEVEN);
    let mut caller = pack.started();
    let came = pack.hashes(&WITH_CHUNK_0);
    for (first, last) in [
        (0, 7),
        (4, 7),
        (7, 7),
        (8, 8),
        (0, 15),
        (0x8000_0000, 0x8000_0000),
        (0, u32::MAX),
    ] {
        let past = integrity(first, last, &pack.root());
        assert_eq!(caller.number(5, &[&past]), 7);
        assert_eq!(caller.number(5, &[&came, &past, &pack.data(0)]), 7);
    }
    assert_eq!(caller.number(5, &[&came, &pack.data(0)]), 0);
}

#[test]
fn trap_82_7_before_8() {
    let mut caller = Pack::new(SEVEN).started();
    for chunk in [7, 8, 511, 0x8000_0000, u32::MAX] {
        assert_eq!(caller.number(5, &[&data(chunk, chunk, 0, &[])]), 7);
    }
    assert_eq!(caller.number(5, &[&data(6, 6, 0, &[])]), 8);
}

/// Trap 83: that nothing changes, every refused call of these tests sees to.
#[test]
fn trap_83_none_has_an_effect() {
    let pack = Pack::new(SEVEN);
    let mut caller = pack.started();
    let came = pack.hashes(&WITH_CHUNK_0);
    let messages = [&have(1, 2)[..], &CHOKE, &have(3, 7), &came, &pack.data(0)];
    assert_eq!(caller.number(5, &messages), 7);
    assert_eq!(caller.has_of(0), []);
    assert_eq!(caller.ask(), (0, 0, false));
    // Nor with a chunk that is refused.
    let messages = [&have(1, 2)[..], &CHOKE, &pack.data(0)];
    assert_eq!(caller.number(5, &messages), 9);
    assert_eq!(caller.has_of(0), []);
    assert!(!caller.state.rows[0].choked);
}

#[test]
fn trap_111_in_datagram_order() {
    let mut caller = Pack::new(SEVEN).started();
    for (messages, has, wants) in [
        (&[request(2, 2), have(2, 2)], vec![2], vec![]),
        (&[have(3, 3), request(3, 3)], vec![2, 3], vec![3]),
        (&[request(4, 6), ack(5, 5, 7)], vec![2, 3, 5], vec![3, 4, 6]),
        (
            &[ack(6, 6, 0), request(6, 6)],
            vec![2, 3, 5, 6],
            vec![3, 4, 6],
        ),
        (&[cancel(0, 4), request(0, 0)], vec![2, 3, 5, 6], vec![0, 6]),
        (&[request(0, 6), cancel(1, 5)], vec![2, 3, 5, 6], vec![0, 6]),
        (&[have(0, 6), cancel(0, 6)], (0..7).collect(), vec![]),
    ] {
        let messages = messages.concat();
        assert_eq!(caller.take(1, 1, &to(5, &[&messages])), (0, vec![]));
        assert_eq!((caller.has_of(0), caller.wants_of(0)), (has, wants));
    }
}

/// Only the row of the channel that the datagram came on.
#[test]
fn each_channel_has_its_own_rows() {
    let mut caller = Pack::new(40 * 1024).started();
    caller.opened_by_peer(6, 9);
    caller.opened_by_peer(7, 9);
    assert_eq!(caller.number(6, &[&request(0, 39), &have(30, 33)]), 0);
    assert_eq!(caller.has_of(1), [30, 31, 32, 33]);
    assert_eq!(caller.has[2..4], [0xc000_0000, 3]);
    assert_eq!(caller.wants[2..4], [0x3fff_ffff, 0xfc]);
    for row in [0, 2] {
        assert_eq!((caller.has_of(row), caller.wants_of(row)), (vec![], vec![]));
    }
    assert_eq!(caller.number(7, &[&CHOKE]), 0);
    let choked = caller.state.rows.map(|row| row.choked);
    assert_eq!(choked.iter().filter(|&&mark| mark).count(), 1);
    assert!(choked[2]);
    assert_eq!(caller.number(7, &[&CHOKE, &UNCHOKE]), 0);
    assert!(!caller.state.rows[2].choked);
    assert_eq!(caller.number(7, &[&UNCHOKE, &CHOKE]), 0);
    assert!(caller.state.rows[2].choked);
}

/// All ranges of a row of 100 bits, one bit at a time.
#[test]
fn ranges_of_bits() {
    let mut caller = Pack::new(100 * 1024).started();
    for first in 0..100 {
        for last in first..100 {
            assert_eq!(
                caller.number(5, &[&cancel(0, 99), &request(first, last)]),
                0
            );
            assert!(caller.wants_of(0).into_iter().eq(first..=last));
            assert_eq!(
                caller.number(5, &[&request(0, 99), &cancel(first, last)]),
                0
            );
            let others = (0..100).filter(|i| !(first..=last).contains(i));
            assert!(caller.wants_of(0).into_iter().eq(others));
        }
    }
}

/// All ranges of the longest row, and a word behind it that stays.
#[test]
fn ranges_of_the_longest_row() {
    let before: Vec<u32> = (0..17).map(|i| 0x9e37_79b9_u32.wrapping_mul(i)).collect();
    for first in 0..512 {
        for last in first..512 {
            let bits = |word: u32| {
                let bit = |i: u32| u32::from((first..=last).contains(&(32 * word + i))) << i;
                if 32 * word > last || 32 * word + 31 < first {
                    0
                } else {
                    (0..32).map(bit).sum()
                }
            };
            let [mut set, mut cleared] = [before.clone(), before.clone()];
            rooms::set_range(&mut set, first, last);
            rooms::clear_range(&mut cleared, first, last);
            for word in 0..17 {
                let (bits, old) = (bits(word), before[word as usize]);
                assert_eq!(set[word as usize], old | bits, "{first} to {last}");
                assert_eq!(cleared[word as usize], old & !bits, "{first} to {last}");
            }
        }
    }
}
