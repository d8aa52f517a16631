//! The radio.

use yard::datagram::{Attack, Datagram, Origin};
use yard::radio::{Faults, Radio};
use yard::random::{Random, Rate};

fn datagram(origin: Origin, length: usize) -> Datagram {
    Datagram {
        from: 0,
        to: 1,
        bytes: vec![0x55; length],
        origin,
    }
}

/// How often the radio of these tests does what.
const FAULTS: Faults = Faults {
    loss: Rate::per_cent(20),
    duplicate: Rate::per_cent(5),
    reorder: Rate::per_cent(10),
    truncate: Rate::per_cent(3),
    flip: Rate::per_cent(4),
};

#[test]
fn without_faults_all_arrives_as_it_was_sent() {
    let mut radio = Radio::new(Faults::NONE, Random::new(1), 2);
    for now in 0..1_000 {
        let sent = datagram(Origin::Honest, 8);
        let arrived: Vec<Datagram> = radio
            .send(now, sent.clone())
            .into_iter()
            .map(|c| c.1)
            .collect();
        assert_eq!(arrived, [sent]);
    }
    assert_eq!((radio.counts.sent, radio.counts.bytes), (1_000, 8_000));
}

/// A byte takes 8 microseconds, and the flight 1,000 to 3,000.
#[test]
fn a_nodes_datagrams_leave_one_behind_the_other() {
    let mut radio = Radio::new(Faults::NONE, Random::new(1), 2);
    for (wanted, now) in [(900, 100), (1_700, 100), (5_800, 5_000)] {
        let copies = radio.send(now, datagram(Origin::Honest, 100));
        assert_eq!(radio.free_at(0), wanted);
        assert!((wanted + 1_000..=wanted + 3_000).contains(&copies[0].0));
    }
    radio.send(5_000, datagram(Origin::Attacker(Attack::Choke), 100));
    assert_eq!(
        radio.free_at(0),
        5_800,
        "the attacker has another transmitter"
    );
}

/// The counts agree with what came out, and are near to the rates: five deviations are allowed.
#[test]
fn the_counts_add_up() {
    let mut radio = Radio::new(FAULTS, Random::new(2), 2);
    let (mut copies, mut damaged, mut late) = (0, 0, 0);
    for _ in 0..10_000 {
        let now = radio.free_at(0);
        let arrived = radio.send(now, datagram(Origin::Honest, 100));
        copies += arrived.len() as u64;
        for (at, copy) in arrived {
            let same = copy.bytes == vec![0x55; 100];
            assert_eq!(copy.origin == Origin::Honest, same);
            damaged += u64::from(!same);
            late += u64::from(at > now + 800 + 3_000);
        }
    }
    let counts = radio.counts;
    assert_eq!(counts.sent, 10_000);
    assert_eq!(counts.sent + counts.duplicated, counts.lost + copies);
    assert_eq!(counts.reordered, late);
    assert!(damaged <= counts.truncated + counts.flipped && damaged > 500);
    assert!(counts.lost.abs_diff(2_000) < 200, "{counts:?}");
    assert!(counts.duplicated.abs_diff(400) < 100, "{counts:?}");
    assert!(counts.reordered.abs_diff(840) < 140, "{counts:?}");
    assert!(counts.truncated.abs_diff(252) < 80, "{counts:?}");
    assert!(counts.flipped.abs_diff(336) < 90, "{counts:?}");
}

/// What the attacker made stays the attacker's, damaged or not.
#[test]
fn damage_hides_no_attacker() {
    let faults = Faults {
        flip: Rate::WHOLE,
        ..Faults::NONE
    };
    let mut radio = Radio::new(faults, Random::new(3), 2);
    let origin = Origin::Attacker(Attack::Replay);
    let copies = radio.send(0, datagram(origin, 100));
    assert_eq!(copies[0].1.origin, origin);
    assert_ne!(copies[0].1.bytes, vec![0x55; 100]);
}
