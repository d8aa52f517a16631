//! A datagram on the radio, and who made it.

use ppspp::Addressing;

/// The attacker's datagrams, by what is wrong with them.
#[derive(Clone, Copy, Debug, PartialEq, Eq)]
pub enum Attack {
    /// Random bytes.
    Garbage,
    /// A captured datagram, cut short.
    Cut,
    /// A captured datagram with flipped bits.
    Flipped,
    /// A captured chunk with its right hashes and wrong bytes.
    WrongBytes,
    /// A captured chunk with wrong bytes and a wrong hash.
    WrongHash,
    /// A chunk of another pack, with all the hashes of that pack.
    OtherPack,
    /// The ordered root as the only peak of another size.
    OtherSize,
    /// A chunk of a wrong length.
    WrongLength,
    /// A captured datagram as it was.
    Replay,
    /// A captured datagram to another channel.
    OtherChannel,
    /// A HANDSHAKE that closes a channel.
    Closing,
    /// A HANDSHAKE that opens a channel for nobody.
    Opening,
    /// A HANDSHAKE that answers a call in another's place.
    Answer,
    /// A CHOKE.
    Choke,
    /// A HAVE of chunks that the peer may not have.
    FalseHave,
    /// A REQUEST or a CANCEL that the peer did not send.
    FalseRequest,
    /// Under bins, a captured datagram in which one bin is another.
    WrongBin,
}

impl Attack {
    /// All of them.
    pub const ALL: [Attack; 17] = [
        Attack::Garbage,
        Attack::Cut,
        Attack::Flipped,
        Attack::WrongBytes,
        Attack::WrongHash,
        Attack::OtherPack,
        Attack::OtherSize,
        Attack::WrongLength,
        Attack::Replay,
        Attack::OtherChannel,
        Attack::Closing,
        Attack::Opening,
        Attack::Answer,
        Attack::Choke,
        Attack::FalseHave,
        Attack::FalseRequest,
        Attack::WrongBin,
    ];

    /// Those that there are under an addressing.
    pub fn under(addressing: Addressing) -> &'static [Attack] {
        match addressing {
            Addressing::Bins => &Attack::ALL,
            _ => &Attack::ALL[..Attack::WrongBin as usize],
        }
    }

    /// In words.
    pub fn words(self) -> &'static str {
        match self {
            Attack::Garbage => "garbage",
            Attack::Cut => "cut copy",
            Attack::Flipped => "flipped copy",
            Attack::WrongBytes => "wrong bytes",
            Attack::WrongHash => "wrong hash",
            Attack::OtherPack => "another pack",
            Attack::OtherSize => "another size",
            Attack::WrongLength => "wrong length",
            Attack::Replay => "replay",
            Attack::OtherChannel => "other channel",
            Attack::Closing => "closing",
            Attack::Opening => "opening",
            Attack::Answer => "false answer",
            Attack::Choke => "CHOKE",
            Attack::FalseHave => "false HAVE",
            Attack::FalseRequest => "false REQUEST",
            Attack::WrongBin => "wrong bin",
        }
    }
}

/// Who made a datagram, and whether the radio damaged it.
#[derive(Clone, Copy, Debug, PartialEq, Eq)]
pub enum Origin {
    /// A node, and it came as it was sent.
    Honest,
    /// A node, and the radio cut it or flipped bits of it.
    Damaged,
    /// The node's own loader, to free a row; it never was on the radio.
    Loader,
    /// The attacker.
    Attacker(Attack),
}

impl Origin {
    /// How many there are.
    pub const COUNT: usize = 3 + Attack::ALL.len();

    /// All of them.
    pub fn all() -> impl Iterator<Item = Origin> {
        let attacks = Attack::ALL.into_iter().map(Origin::Attacker);
        [Origin::Honest, Origin::Damaged, Origin::Loader]
            .into_iter()
            .chain(attacks)
    }

    /// Those that there are under an addressing.
    pub fn under(addressing: Addressing) -> impl Iterator<Item = Origin> {
        let attacks = Attack::under(addressing);
        Origin::all().filter(|origin| match origin {
            Origin::Attacker(attack) => attacks.contains(attack),
            _ => true,
        })
    }

    /// Its place among all of them.
    pub fn place(self) -> usize {
        match self {
            Origin::Honest => 0,
            Origin::Damaged => 1,
            Origin::Loader => 2,
            Origin::Attacker(attack) => 3 + attack as usize,
        }
    }

    /// In words.
    pub fn words(self) -> String {
        match self {
            Origin::Honest => "honest".into(),
            Origin::Damaged => "damaged by the radio".into(),
            Origin::Loader => "the loader's own".into(),
            Origin::Attacker(attack) => format!("attacker: {}", attack.words()),
        }
    }
}

/// A datagram in its envelope. The addresses are numbers of nodes, 0 the server's.
#[derive(Clone, Debug, PartialEq, Eq)]
pub struct Datagram {
    /// The sender's address, as far as the receiver can tell.
    pub from: usize,
    /// The receiver's address.
    pub to: usize,
    /// The bytes.
    pub bytes: Vec<u8>,
    /// Who made it.
    pub origin: Origin,
}
