//! Traps 112 to 115: starting and building, and what asking tells of them.

use super::*;

const ROOT: Digest = [0x5a; 32];

/// "L=0: 12; 524,288: taken; 524,289: 12", and 12 before 11.
#[test]
fn trap_112_lengths_of_an_order() {
    let large = Caller::new(524_288);
    for length in [0, 524_289, u32::MAX] {
        for mut caller in [large.clone(), Caller::with_sizes(NOTHING)] {
            assert_eq!(caller.start(&ROOT, length), 12);
            assert_eq!(
                caller.build(length, &vec![0; length as usize % 524_290]),
                12
            );
        }
    }
    for (length, count) in [(1, 1), (524_288, 512)] {
        let mut caller = large.clone();
        assert_eq!(caller.start(&ROOT, length), 0);
        assert_eq!((caller.state.root, caller.state.length), (ROOT, length));
        assert_eq!(caller.ask(), (0, 0, false));
        assert_eq!(caller.build(length, &vec![1; length as usize]), 0);
        assert_eq!(caller.ask(), (0, count, true));
    }
}

/// No room at all.
const NOTHING: Sizes = Sizes {
    chunks: 0,
    map: 0,
    hashes: 0,
    trusted: 0,
    has: 0,
    wants: 0,
    reply: 0,
};

/// The least sizes, as 01 tells them, for 1, 7, 33 and 512 chunks.
#[test]
fn the_least_sizes() {
    for (length, chunks, map, hashes, trusted, rows) in [
        (1, 1, 1, 16, 1, 16),
        (SEVEN, 7_162, 1, 128, 1, 16),
        (16 * 1024 + 1, 16_385, 1, 512, 2, 16),
        (32 * 1024 + 1, 32_769, 2, 1024, 4, 32),
        (524_288, 524_288, 16, 8192, 32, 256),
    ] {
        let sizes = Sizes {
            chunks,
            map,
            hashes,
            trusted,
            has: rows,
            wants: rows,
            reply: 2048,
        };
        assert_eq!(Sizes::of(length), sizes);
    }
}

/// Each room in turn is one too small, in every call that looks at it.
#[test]
fn rooms_one_too_small() {
    let pack = Pack::new(SEVEN);
    let least = Sizes::of(SEVEN);
    let mut caller = Caller::with_sizes(least);
    assert_eq!(caller.start(&ROOT, SEVEN), 0);
    assert_eq!(caller.build(SEVEN, &pack.content), 0);
    assert_eq!(caller.open(5).0, 0);
    assert_eq!(caller.number(5, &[]), 0);
    let shorten: [fn(&mut Sizes); 7] = [
        |sizes| sizes.chunks -= 1,
        |sizes| sizes.map -= 1,
        |sizes| sizes.hashes -= 1,
        |sizes| sizes.trusted -= 1,
        |sizes| sizes.has -= 1,
        |sizes| sizes.wants -= 1,
        |sizes| sizes.reply -= 1,
    ];
    for (room, shorten) in shorten.into_iter().enumerate() {
        let mut sizes = least;
        shorten(&mut sizes);
        let mut caller = Caller::with_sizes(sizes);
        assert_eq!(caller.start(&ROOT, SEVEN), 11);
        assert_eq!(caller.build(SEVEN, &pack.content), 11);
        assert_eq!(caller.build(SEVEN, &pack.content[1..]), 12);
        caller.state.length = SEVEN;
        // 11 before all that these calls are wrong in besides.
        assert_eq!(caller.open(0).0, 11);
        assert_eq!(caller.take(0, 0, &[]).0, 11);
        assert_eq!(caller.write(77, 99, 0).0, 11);
        let asked = if room == 1 { 11 } else { 0 };
        assert_eq!(caller.ask().0, asked);
    }
}

/// B10, and 12 in the calls on a store without an order or with a bad one.
#[test]
fn a_refused_start_leaves_the_old_store() {
    let pack = Pack::new(SEVEN);
    let mut caller = pack.built();
    assert_eq!(caller.start(&ROOT, 0), 12);
    assert_eq!(caller.start(&ROOT, 524_288), 11);
    assert_eq!(caller.build(524_288, &vec![0; 524_288]), 11);
    assert_eq!(caller.build(7, &[0; 8]), 12);
    assert_eq!(caller.ask(), (0, 7, true));
    for length in [0, 524_289, u32::MAX] {
        caller.state.length = length;
        assert_eq!(caller.ask(), (12, 0, false));
        assert_eq!(caller.open(0).0, 12);
        assert_eq!(caller.take(0, 0, &[]).0, 12);
        assert_eq!(caller.write(5, 0, 0).0, 12);
        caller.reply.truncate(2047);
        assert_eq!(caller.open(6).0, 12);
    }
}

/// Trap 113: "nothing else".
#[test]
fn trap_113_what_starting_changes() {
    let mut caller = Caller::new(SEVEN);
    caller.state.rows[3].phase = Phase::Open;
    caller.state.rows[15].id = 4;
    let mut wanted = caller.clone();
    assert_eq!(caller.start(&ROOT, SEVEN), 0);
    wanted.state = State {
        root: ROOT,
        length: SEVEN,
        ..State::default()
    };
    wanted.map[0] = 0;
    wanted.trusted[0] = 1 << 7;
    wanted.has[..16].fill(0);
    wanted.wants[..16].fill(0);
    wanted.hashes[56..64].fill(0x5a5a_5a5a);
    assert!(caller == wanted);
}

#[test]
fn trap_114_the_root_alone_is_trusted() {
    let mut root = ROOT;
    root[..4].copy_from_slice(&[1, 2, 3, 4]);
    for (length, top) in [
        (1, 0),
        (1_025, 1),
        (2_049, 3),
        (SEVEN, 7),
        (8_192, 7),
        (8_193, 15),
        (524_288, 511),
    ] {
        let mut caller = Caller::new(length);
        assert_eq!(caller.start(&root, length), 0);
        assert_eq!(caller.trusted_nodes(), [top], "length {length}");
        assert_eq!(caller.hash(top), root);
        assert_eq!(caller.hashes[8 * top as usize], 0x0102_0304);
    }
}

/// Trap 115: not node 5 of N=3, and content of another length.
#[test]
fn trap_115_what_building_changes() {
    let pack = Pack::new(3 * 1024);
    let mut caller = Caller::new(3 * 1024);
    for other in [0, 3071, 3073] {
        let content = vec![0; other];
        assert_eq!(caller.build(3 * 1024, &content), 12);
    }
    let mut wanted = caller.clone();
    assert_eq!(caller.build(3 * 1024, &pack.content), 0);
    wanted.state = State {
        root: pack.root(),
        length: 3 * 1024,
        ..State::default()
    };
    wanted.chunks[..3 * 1024].copy_from_slice(&pack.content);
    wanted.map[0] = 0b111;
    wanted.trusted[0] = 0b11111;
    wanted.has[..16].fill(0);
    wanted.wants[..16].fill(0);
    for node in 0..5 {
        let hash = pack.hash(node as u64);
        for (i, bytes) in hash.chunks(4).enumerate() {
            let bytes = bytes.try_into().unwrap();
            wanted.hashes[8 * node + i] = u32::from_be_bytes(bytes);
        }
    }
    assert!(caller == wanted);
}

/// Every number of chunks up to 33: the root, and each hash and each trust.
#[test]
fn built_as_the_plain_tree() {
    for count in (1..=33).chain([64, 65]) {
        let pack = Pack::new(1024 * count - 6);
        let mut caller = Caller::new(pack.length());
        let before = caller.clone();
        assert_eq!(caller.build(pack.length(), &pack.content), 0);
        assert_eq!(caller.state.root, pack.root());
        assert_eq!(caller.ask(), (0, count, true));
        let top = tree::root(count);
        let inside = |&node: &u64| {
            node == top || (node <= 2 * top && tree::last_chunk(node) < u64::from(count))
        };
        let nodes = || 0..2 * u64::from(tree::leaf_places(count));
        assert!(nodes().filter(inside).eq(caller.trusted_nodes()));
        for node in nodes() {
            let wanted = if inside(&node) {
                pack.hash(node)
            } else {
                before.hash(node)
            };
            assert_eq!(caller.hash(node), wanted);
        }
    }
}

/// Asking counts the bits of chunks alone: those past N in the last word, and
/// words past the row, are none.
#[test]
fn asking_counts_the_map() {
    let mut caller = Pack::new(40 * 1024 - 6).started();
    caller.map[..3].fill(u32::MAX);
    assert_eq!(caller.ask(), (0, 40, true));
    caller.map[1] = !0x80;
    assert_eq!(caller.ask(), (0, 39, false));
    caller.map[..2].fill(0);
    assert_eq!(caller.ask(), (0, 0, false));
    caller.map.truncate(2);
    assert_eq!(caller.ask().0, 0);
    caller.map.truncate(1);
    assert_eq!(caller.ask(), (11, 0, false));
}
