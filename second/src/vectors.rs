//! The messages whose digests `second sha256-vectors` prints.

use crate::sha256::{sha256, Digest, Sha256};

/// The two-block example message of 448 bits.
pub const FIPS_448: &[u8] = b"abcdbcdecdefdefgefghfghighijhijkijkljklmklmnlmnomnopnopq";

/// The two-block example message of 896 bits.
pub const FIPS_896: &[u8] = b"abcdefghbcdefghicdefghijdefghijkefghijklfghijklm\
ghijklmnhijklmnoijklmnopjklmnopqklmnopqrlmnopqrsmnopqrstnopqrstu";

/// Lengths around the borders of the padding and of the block.
pub const LENGTHS: [usize; 11] = [55, 56, 63, 64, 65, 119, 120, 127, 128, 1023, 1024];

/// A label and a digest for each vector, in the order they are printed.
pub fn sha256_vectors() -> Vec<(String, Digest)> {
    let mut vectors = vec![
        ("empty".to_string(), sha256(b"")),
        ("abc".to_string(), sha256(b"abc")),
        ("fips-448".to_string(), sha256(FIPS_448)),
        ("fips-896".to_string(), sha256(FIPS_896)),
        ("million-a".to_string(), million_a()),
    ];
    for length in LENGTHS {
        vectors.push((format!("length-{length}"), sha256(&counting(length))));
    }
    vectors
}

/// The digest of a million times `a`, fed in blocks of 64 bytes.
fn million_a() -> Digest {
    let mut hash = Sha256::new();
    for _ in 0..1_000_000 / 64 {
        hash.update(&[b'a'; 64]);
    }
    hash.finish()
}

/// The bytes 0, 1, 2, .., starting again at 0 after 255.
pub fn counting(length: usize) -> Vec<u8> {
    (0..=255).cycle().take(length).collect()
}

#[cfg(test)]
mod tests {
    use super::{counting, sha256_vectors, FIPS_448, FIPS_896};
    use crate::hex;

    #[test]
    fn messages_have_the_lengths_their_names_say() {
        assert_eq!(FIPS_448.len() * 8, 448);
        assert_eq!(FIPS_896.len() * 8, 896);
        assert_eq!(1_000_000 % 64, 0);
        let message = counting(1024);
        assert_eq!(message.len(), 1024);
        for (i, &byte) in message.iter().enumerate() {
            assert_eq!(usize::from(byte), i % 256);
        }
    }

    /// The digests published for SHA-256.
    #[test]
    fn published_digests() {
        let published = [
            (
                "empty",
                "e3b0c44298fc1c149afbf4c8996fb92427ae41e4649b934ca495991b7852b855",
            ),
            (
                "abc",
                "ba7816bf8f01cfea414140de5dae2223b00361a396177a9cb410ff61f20015ad",
            ),
            (
                "fips-448",
                "248d6a61d20638b8e5c026930c3e6039a33ce45964ff2167f6ecedd419db06c1",
            ),
            (
                "fips-896",
                "cf5b16a778af8380036ce59e7b0492370b249b11e8f07a51afac45037afee9d1",
            ),
            (
                "million-a",
                "cdc76e5c9914fb9281a1c7e284d73e67f1809a48a497200e046d39ccc7112cd0",
            ),
        ];
        let vectors = sha256_vectors();
        for ((label, digest), (wanted_label, wanted)) in vectors.iter().zip(published) {
            assert_eq!(label, wanted_label);
            assert_eq!(hex::encode(digest), wanted, "{label}");
        }
    }

    #[test]
    fn labels_in_order() {
        let labels: Vec<String> = sha256_vectors().into_iter().map(|v| v.0).collect();
        assert_eq!(
            labels.join(" "),
            "empty abc fips-448 fips-896 million-a \
             length-55 length-56 length-63 length-64 length-65 length-119 length-120 \
             length-127 length-128 length-1023 length-1024"
        );
    }
}
