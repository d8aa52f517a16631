//! What the ACK of a chunk names (02, No. 2), through the proved entry points. All
//! names are worked out on paper; each call goes to `second` too.

use harness::caller::Caller;
use harness::downloads::{Download, DELAY, ITS, OURS};
use harness::packets::*;
use harness::packs::Pack;
use harness::random::Random;
use second::wire::Addressing;

/// The length of a pack of so many chunks.
fn length(count: u32) -> u32 {
    1_024 * count - 6
}

/// A download of so many chunks, of which none has come.
fn download(addressing: Addressing, count: u32) -> Download {
    let mut random = Random::new(count);
    let pack = Pack::new(&mut random, length(count));
    Download::new(addressing, &mut random, pack)
}

/// A download of so many chunks in which these come, and the range that the ACK of
/// each names.
fn ranges(count: u32, wanted: &[(u32, (u32, u32))]) -> Download {
    let mut download = download(Addressing::Ranges, count);
    bring_ranges(&mut download, wanted);
    download
}

/// The same with bins.
fn bins(count: u32, wanted: &[(u32, u32)]) -> Download {
    let mut download = download(Addressing::Bins, count);
    bring_bins(&mut download, wanted);
    download
}

/// Chunks that come, held or not, and the range that the ACK of each names.
fn bring_ranges(download: &mut Download, wanted: &[(u32, (u32, u32))]) {
    for &(chunk, (first, last)) in wanted {
        let name = ack(Addressing::Ranges, first, last, DELAY);
        let (_, reply) = download.bring(chunk, true);
        assert_eq!(reply, datagram(ITS, &[name]), "chunk {chunk}");
    }
}

/// The same with bins.
fn bring_bins(download: &mut Download, wanted: &[(u32, u32)]) {
    for &(chunk, bin) in wanted {
        let (_, reply) = download.bring(chunk, true);
        assert_eq!(reply, datagram(ITS, &[ack_bin(bin)]), "chunk {chunk}");
    }
}

/// An ACK of a bin.
fn ack_bin(bin: u32) -> Vec<u8> {
    [&with_bin(ACK, bin)[..], &DELAY.to_be_bytes()].concat()
}

#[test]
fn a_run_is_joined() {
    for count in [3, 7, 32, 33] {
        let joined = [(0, (0, 0)), (2, (2, 2)), (1, (0, 2))];
        let mut download = ranges(count, &joined);
        // Again, any of them.
        bring_ranges(&mut download, &[0, 1, 2, 1].map(|chunk| (chunk, (0, 2))));
    }
}

#[test]
fn gaps_and_the_last_chunk() {
    ranges(
        7,
        &[
            (0, (0, 0)),
            (1, (0, 1)),
            (3, (3, 3)),
            (6, (6, 6)),
            (5, (5, 6)),
            (0, (0, 1)),
            (4, (3, 6)),
            (6, (3, 6)),
            (3, (3, 6)),
            (1, (0, 1)),
            (2, (0, 6)),
            (6, (0, 6)),
        ],
    );
}

#[test]
fn bins_by_hand() {
    // Two neighbours that are no subtree, and two that are.
    bins(4, &[(1, 2), (2, 4), (1, 2)]);
    bins(4, &[(0, 0), (1, 1), (0, 1)]);
    // In order, from the end, and the even chunks before the odd ones.
    let in_order = [0, 1, 4, 3, 8, 9, 12, 7];
    bins(8, &(0..).zip(in_order).collect::<Vec<_>>());
    let from_the_end = [14, 13, 10, 11, 6, 5, 2, 7];
    bins(8, &(0..8).rev().zip(from_the_end).collect::<Vec<_>>());
    let even_first = [
        (0, 0),
        (2, 4),
        (4, 8),
        (6, 12),
        (1, 1),
        (3, 3),
        (5, 9),
        (7, 7),
    ];
    bins(8, &even_first);
    // A subtree that the end of the pack cuts is none.
    let mut five = bins(5, &(0..).zip([0, 1, 4, 3, 8]).collect::<Vec<_>>());
    bring_bins(&mut five, &[(4, 8), (0, 3), (3, 3)]);
    let mut seven = bins(7, &(0..).zip([0, 1, 4, 3, 8, 9, 12]).collect::<Vec<_>>());
    bring_bins(&mut seven, &[(6, 12), (4, 9), (5, 9), (0, 3), (3, 3)]);
    let mut one = bins(1, &[(0, 0)]);
    bring_bins(&mut one, &[(0, 0)]);
}

/// In order, each chunk closes the run from the first chunk on; as bins, a subtree
/// of as many chunks as the highest power of two that divides their number.
#[test]
fn in_order() {
    for count in [32, 33, 64, 65] {
        let all = (0..count).map(|chunk| (chunk, (0, chunk)));
        let mut download = ranges(count, &all.collect::<Vec<_>>());
        let again = [0, 31, count / 2, count - 1].map(|chunk| (chunk, (0, count - 1)));
        bring_ranges(&mut download, &again);
        let size = |chunk: u32| 1 << (chunk + 1).trailing_zeros();
        let all = (0..count).map(|chunk| (chunk, 2 * chunk + 1 - size(chunk)));
        bins(count, &all.collect::<Vec<_>>());
    }
}

/// The peaks of packs: of each the first chunk and the bin.
const PEAKS: [(u32, &[(u32, u32)]); 9] = [
    (5, &[(0, 3), (4, 8)]),
    (7, &[(0, 3), (4, 9), (6, 12)]),
    (8, &[(0, 7)]),
    (32, &[(0, 31)]),
    (33, &[(0, 31), (32, 64)]),
    (64, &[(0, 63)]),
    (65, &[(0, 63), (64, 128)]),
    (
        511,
        &[
            (0, 255),
            (256, 639),
            (384, 831),
            (448, 927),
            (480, 975),
            (496, 999),
            (504, 1_011),
            (508, 1_017),
            (510, 1_020),
        ],
    ),
    (512, &[(0, 511)]),
];

/// A chunk of a store that was built, once more: the range of the whole pack, or
/// the bin of a peak.
#[test]
fn whole_packs() {
    for (count, peaks) in PEAKS {
        let mut random = Random::new(count);
        let pack = Pack::new(&mut random, length(count));
        let [mut bins, mut ranges] = METHODS.map(|addressing| {
            let built = Caller::built(addressing, &mut random, &pack);
            built.opened(OURS, ITS)
        });
        for chunk in 0..count {
            let again = |store: &mut Caller, addressing| {
                let data = data(addressing, chunk, chunk, 0, pack.chunk(chunk));
                store.take(DELAY, 0, &datagram(OURS, &[data]))
            };
            let case = format!("chunk {chunk} of {count}");
            let wanted = datagram(ITS, &[ack(Addressing::Ranges, 0, count - 1, DELAY)]);
            assert_eq!(
                again(&mut ranges, Addressing::Ranges),
                (0, wanted),
                "{case}"
            );
            let peak = peaks.iter().rfind(|(first, _)| *first <= chunk);
            let (_, bin) = peak.expect("the first peak is over chunk 0");
            let wanted = datagram(ITS, &[ack_bin(*bin)]);
            assert_eq!(again(&mut bins, Addressing::Bins), (0, wanted), "{case}");
        }
    }
}

/// Bits past the last chunk are set, in its word and in the one behind: none of
/// them counts as a chunk.
#[test]
fn bits_past_the_last_chunk() {
    // The bins of the last chunk alone, and of the one before it when both came.
    for (count, last, before) in [
        (7, 12, 10),
        (8, 14, 13),
        (31, 60, 58),
        (32, 62, 61),
        (33, 64, 62),
        (64, 126, 125),
    ] {
        let [mut bins, mut ranges] = METHODS.map(|addressing| {
            let mut download = download(addressing, count);
            let past = |word: u32| u32::MAX.checked_shl(count - 32 * word).unwrap_or(0);
            download.store.0.change(|_, rooms| {
                let word = (count - 1) / 32;
                rooms.map[word as usize] |= past(word);
                rooms.map.truncate(word as usize + 1);
                rooms.map.push(u32::MAX);
            });
            download
        });
        let of_last = (count - 1, (count - 1, count - 1));
        let of_both = [count - 2, count - 1].map(|chunk| (chunk, (count - 2, count - 1)));
        bring_ranges(&mut ranges, &[of_last, of_both[0], of_both[1]]);
        bring_bins(&mut bins, &[(count - 1, last), (count - 2, before)]);
        // What is held is told without them.
        assert_eq!([bins.store.ask(), ranges.store.ask()], [(0, 2, 0); 2]);
    }
}
