//! The fast code against the published digests, against itself in pieces, and
//! against the slow reading.

use super::{node, plain, sha256, Sha256, INITIAL, K};
use crate::hex;

/// A message without a short period.
fn message(length: usize) -> Vec<u8> {
    (0..length).map(|i| ((i * 131 + 7) % 251) as u8).collect()
}

#[test]
fn published_one_block() {
    assert_eq!(
        hex::encode(&sha256(b"")),
        "e3b0c44298fc1c149afbf4c8996fb92427ae41e4649b934ca495991b7852b855"
    );
    assert_eq!(
        hex::encode(&sha256(b"abc")),
        "ba7816bf8f01cfea414140de5dae2223b00361a396177a9cb410ff61f20015ad"
    );
}

#[test]
fn published_two_blocks() {
    assert_eq!(
        hex::encode(&sha256(
            b"abcdbcdecdefdefgefghfghighijhijkijkljklmklmnlmnomnopnopq"
        )),
        "248d6a61d20638b8e5c026930c3e6039a33ce45964ff2167f6ecedd419db06c1"
    );
    assert_eq!(
        hex::encode(&sha256(
            b"abcdefghbcdefghicdefghijdefghijkefghijklfghijklmghijklmn\
              hijklmnoijklmnopjklmnopqklmnopqrlmnopqrsmnopqrstnopqrstu"
        )),
        "cf5b16a778af8380036ce59e7b0492370b249b11e8f07a51afac45037afee9d1"
    );
}

#[test]
fn published_million_a() {
    assert_eq!(
        hex::encode(&sha256(&vec![b'a'; 1_000_000])),
        "cdc76e5c9914fb9281a1c7e284d73e67f1809a48a497200e046d39ccc7112cd0"
    );
}

#[test]
fn pieces_are_the_whole() {
    let message = message(200);
    let whole = sha256(&message);
    // Every split in three, the empty pieces included.
    for i in 0..=200 {
        for j in i..=200 {
            let mut hash = Sha256::new();
            hash.update(&message[..i]);
            hash.update(&message[i..j]);
            hash.update(&message[j..]);
            assert_eq!(hash.finish(), whole, "split at {i} and {j}");
        }
    }
    // Pieces of one size.
    for size in 1..=200 {
        let mut hash = Sha256::default();
        message.chunks(size).for_each(|piece| hash.update(piece));
        assert_eq!(hash.finish(), whole, "pieces of {size}");
    }
}

#[test]
fn every_length_as_in_the_slow_reading() {
    for length in 0..=300 {
        let message = message(length);
        let wanted = plain::sha256(&message);
        assert_eq!(sha256(&message)[..], wanted, "length {length}");
        let mut hash = Sha256::new();
        message.iter().for_each(|&byte| hash.update(&[byte]));
        assert_eq!(hash.finish()[..], wanted, "length {length}, by bytes");
    }
}

#[test]
fn a_node_is_the_hash_of_both_digests() {
    let (left, right) = (sha256(b"left"), sha256(b"right"));
    assert_eq!(node(&left, &right), sha256(&[left, right].concat()));
    assert_eq!(
        node(&left, &right)[..],
        plain::sha256(&[left, right].concat())
    );
    assert_ne!(node(&left, &right), node(&right, &left));
}

#[test]
fn constants_as_defined() {
    assert_eq!(INITIAL[..], plain::initial());
    assert_eq!(K.as_flattened(), plain::constants());
}

#[test]
fn functions_as_written_in_the_standard() {
    // The bits of a word are independent in Ch and Maj: eight bits try all.
    let (x, y, z) = (0b1111_0000, 0b1100_1100, 0b1010_1010);
    assert_eq!(super::ch(x, y, z), plain::ch(x, y, z));
    assert_eq!(super::maj(x, y, z), plain::maj(x, y, z));
    // The sigmas are linear over XOR: the words of one bit try all.
    for x in (0..32).map(|place| 1 << place) {
        assert_eq!(super::big_sigma_0(x), plain::big_sigma_0(x));
        assert_eq!(super::big_sigma_1(x), plain::big_sigma_1(x));
        assert_eq!(super::small_sigma_0(x), plain::small_sigma_0(x));
        assert_eq!(super::small_sigma_1(x), plain::small_sigma_1(x));
    }
}
