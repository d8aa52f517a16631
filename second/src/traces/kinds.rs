//! What a line of a trace is made for.

/// What a line is made for. Behind each group stands the number that 01 gives.
#[derive(Clone, Copy, Debug, PartialEq, Eq, PartialOrd, Ord)]
pub enum Kind {
    /// Line one with an order; it is not answered.
    GoodOrder,
    /// A line one that is no order: 0c.
    BadOrder,

    // Lines that are no frames: 0f.
    /// A character that is no digit.
    BadCharacter,
    /// One digit more or fewer.
    OddLength,
    /// Under 16 digits, but not none.
    FewDigits,
    /// A few digits over 4,112.
    ManyDigits,
    /// Thousands of characters.
    LongLine,
    /// No character.
    EmptyLine,

    // Taken: 0.
    /// A HANDSHAKE that opens a channel.
    Opening,
    /// A closing HANDSHAKE.
    Closing,
    /// The HANDSHAKE of a channel's own peer again.
    Again,
    /// No message.
    Keepalive,
    /// Messages without DATA.
    Plain,
    /// The same, with 2,048 bytes.
    Fullest,
    /// A new chunk with the hashes that it needs.
    ChunkLeast,
    /// A new chunk with all hashes that a store would send.
    ChunkAll,
    /// A new chunk with hashes not needed, right or wrong, and other messages.
    ChunkMore,
    /// A chunk that is held.
    ChunkHeld,

    /// A datagram under 4 bytes: 1.
    Short,

    // Layouts refused: 2.
    RefusedType,
    CutMessage,
    FirstAboveLast,
    NoNode,
    NodeTwice,
    DataRange,
    UnknownOption,
    OptionOrder,
    NoEnd,

    // 3.
    HandshakeBehind,
    BytesBehind,
    BothZero,
    ClosingWithOptions,
    NewSource,

    // 4.
    OptionMissing,
    OptionOther,

    // 5.
    /// To an ID that no channel has.
    NoRow,
    /// To channel 0 without HANDSHAKE.
    ToZero,

    /// An opening with all rows in use: 6.
    Full,

    // 7.
    RangePast,
    NodePast,
    ChunkPast,

    /// 8.
    ChunkLength,

    // 9.
    PeakMissing,
    SiblingMissing,

    // 10.
    ChunkDamaged,
    HashDamaged,
    /// Other bytes, and the hash of the leaf that fits them.
    LeafForged,
    /// A chunk that does not belong to the order's root.
    OtherPack,

    /// Two numbers apply, and the first is given.
    Both(u8, u8),

    // Any number.
    /// A datagram cut anywhere.
    Cut,
    /// Two datagrams in one.
    Glued,
    /// Some bytes of a datagram changed.
    Changed,
}

use Kind::*;

/// The pairs of numbers that one line can merit, the earlier in 01's order
/// first. 3 before 2 is for a HANDSHAKE with a fault behind it.
pub const PAIRS: [(u8, u8); 30] = [
    (15, 1),
    (2, 3),
    (3, 2),
    (2, 4),
    (2, 5),
    (2, 6),
    (2, 7),
    (2, 8),
    (2, 9),
    (2, 10),
    (3, 4),
    (3, 5),
    (3, 6),
    (3, 7),
    (3, 8),
    (3, 9),
    (3, 10),
    (5, 4),
    (5, 6),
    (5, 7),
    (5, 8),
    (5, 9),
    (5, 10),
    (4, 6),
    (7, 8),
    (7, 9),
    (7, 10),
    (8, 9),
    (8, 10),
    (9, 10),
];

impl Kind {
    /// The number that a line of this kind gets; none if it may get any. For
    /// line one, the number of a bad one.
    pub fn number(self) -> Option<u8> {
        match self {
            GoodOrder | Cut | Glued | Changed => None,
            BadOrder => Some(0x0c),
            BadCharacter | OddLength | FewDigits | ManyDigits | LongLine | EmptyLine => Some(0x0f),
            Opening | Closing | Again | Keepalive | Plain | Fullest => Some(0),
            ChunkLeast | ChunkAll | ChunkMore | ChunkHeld => Some(0),
            Short => Some(1),
            RefusedType | CutMessage | FirstAboveLast | NoNode | NodeTwice => Some(2),
            DataRange | UnknownOption | OptionOrder | NoEnd => Some(2),
            HandshakeBehind | BytesBehind | BothZero | ClosingWithOptions | NewSource => Some(3),
            OptionMissing | OptionOther => Some(4),
            NoRow | ToZero => Some(5),
            Full => Some(6),
            RangePast | NodePast | ChunkPast => Some(7),
            ChunkLength => Some(8),
            PeakMissing | SiblingMissing => Some(9),
            ChunkDamaged | HashDamaged | LeafForged | OtherPack => Some(10),
            Both(first, _) => Some(first),
        }
    }

    /// The kinds with a single fault in a datagram.
    pub const FAULTS: [Kind; 29] = [
        Short,
        RefusedType,
        CutMessage,
        FirstAboveLast,
        NoNode,
        NodeTwice,
        DataRange,
        UnknownOption,
        OptionOrder,
        NoEnd,
        HandshakeBehind,
        BytesBehind,
        BothZero,
        ClosingWithOptions,
        NewSource,
        OptionMissing,
        OptionOther,
        NoRow,
        ToZero,
        Full,
        RangePast,
        NodePast,
        ChunkPast,
        ChunkLength,
        PeakMissing,
        SiblingMissing,
        ChunkDamaged,
        HashDamaged,
        LeafForged,
    ];

    /// Faults with a needed hash.
    pub const NEEDING: [Kind; 5] = [
        PeakMissing,
        SiblingMissing,
        HashDamaged,
        Both(8, 9),
        Both(9, 10),
    ];

    /// Lines that are no frames.
    pub const LINES: [Kind; 6] = [
        BadCharacter,
        OddLength,
        FewDigits,
        ManyDigits,
        LongLine,
        EmptyLine,
    ];

    /// Chunks that are taken.
    pub const CHUNKS: [Kind; 4] = [ChunkLeast, ChunkAll, ChunkMore, ChunkHeld];

    /// Other messages that are taken on an open channel.
    pub const MESSAGES: [Kind; 3] = [Keepalive, Plain, Fullest];

    /// HANDSHAKEs that are taken.
    pub const HANDSHAKES: [Kind; 3] = [Opening, Closing, Again];

    /// Any number.
    pub const MUTATED: [Kind; 3] = [Cut, Glued, Changed];
}
