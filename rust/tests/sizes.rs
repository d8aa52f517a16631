//! The sizes of rooms against 01: "16 words of 32 bits for each leaf place", "N bits a row, for trusted nodes 2 a leaf
//! place, every row in whole words".

use ppspp::sizes::{self, fixed};

/// The least power of two that is at least n.
fn leaf_places(n: u32) -> usize {
    let mut places = 1;
    while places < n as usize {
        places *= 2;
    }
    places
}

/// Words of so many bits.
fn whole_words(bits: usize) -> usize {
    bits / 32 + usize::from(!bits.is_multiple_of(32))
}

#[test]
fn rooms_have_the_sizes_of_01() {
    for n in 1..=512 {
        let map = whole_words(n as usize);
        let wanted = [
            map,
            16 * leaf_places(n),
            whole_words(2 * leaf_places(n)),
            16 * map,
        ];
        let proved = [
            sizes::map_words(n),
            sizes::hash_words(n),
            sizes::trusted_words(n),
            sizes::peer_words(n),
        ];
        let formulas = [
            fixed::map_words(n),
            fixed::hash_words(n),
            fixed::trusted_words(n),
            fixed::peer_words(n),
        ];
        assert_eq!(proved, wanted, "{n} chunks");
        assert_eq!(formulas, wanted, "{n} chunks");
    }
}

#[test]
fn chunk_counts_are_those_of_01() {
    let tried = [
        (1, 1),
        (1_023, 1),
        (1_024, 1),
        (1_025, 2),
        (2_048, 2),
        (7_162, 7),
        (524_287, 512),
        (524_288, 512),
    ];
    for (length, n) in tried {
        assert_eq!(sizes::chunk_count(length), n, "{length} bytes");
        assert_eq!(fixed::chunk_count(length), n, "{length} bytes");
    }
}

#[test]
fn limits_are_those_of_01() {
    assert_eq!(sizes::CHUNK_SIZE, 1_024);
    assert_eq!(sizes::MAX_LENGTH, 524_288);
    assert_eq!(sizes::MAX_CHUNKS, 512);
    assert_eq!(sizes::CHANNELS, 16);
    assert_eq!(sizes::ROOT_BYTES, 32);
    assert_eq!((sizes::MIN_DATAGRAM, sizes::MAX_DATAGRAM), (4, 2_048));
    assert_eq!(sizes::REPLY_BYTES, 2_048);
    // A version, a root of eight words, a length, an addressing, and 16 rows of four.
    assert_eq!(sizes::STATE_WORDS, 1 + 8 + 1 + 1 + 16 * 4);
}

#[test]
fn library_has_the_layout_of_the_crate() {
    assert!(sizes::library_matches());
}
