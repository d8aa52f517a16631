//! The generator.

use yard::random::{Random, Rate};

/// The numbers that are published for SplitMix64 and the seed 1234567.
#[test]
fn gives_the_published_numbers() {
    let mut random = Random::new(1_234_567);
    let numbers: Vec<u64> = (0..5).map(|_| random.number()).collect();
    let published = [
        6_457_827_717_110_365_317,
        3_203_168_211_198_807_973,
        9_817_491_932_198_370_423,
        4_593_380_528_125_082_431,
        16_408_922_859_458_223_821,
    ];
    assert_eq!(numbers, published);
}

/// Ten numbers, each 10,000 times on average: the deviation is about 95, and five of them are allowed.
#[test]
fn numbers_below_a_bound_are_even() {
    let mut random = Random::new(3);
    let mut times = [0u32; 10];
    for _ in 0..100_000 {
        times[random.below(10) as usize] += 1;
    }
    assert!(times.iter().all(|n| n.abs_diff(10_000) < 475), "{times:?}");
}

/// A rate of 20 per cent in 100,000: the deviation is about 126.
#[test]
fn what_has_a_rate_happens_as_often() {
    let mut random = Random::new(4);
    let times = (0..100_000).filter(|_| random.happens(Rate::per_cent(20)));
    let times = times.count();
    assert!(times.abs_diff(20_000) < 630, "{times}");
    assert!((0..1_000).all(|_| random.happens(Rate::WHOLE)));
    assert!(!(0..1_000).any(|_| random.happens(Rate(0))));
}

/// Both ends are reached, and nothing outside.
#[test]
fn numbers_between_two_include_both() {
    let mut random = Random::new(5);
    let numbers: Vec<u64> = (0..200).map(|_| random.between(7, 9)).collect();
    assert!([7, 8, 9].iter().all(|wanted| numbers.contains(wanted)));
    assert!(numbers.iter().all(|number| (7..=9).contains(number)));
}

#[test]
fn all_byte_values_come() {
    let bytes = Random::new(6).bytes(10_000);
    assert!((0..=255).all(|byte: u8| bytes.contains(&byte)));
}

#[test]
fn of_nothing_nothing_is_picked() {
    let mut random = Random::new(7);
    assert_eq!(random.pick::<u8>(&[]), None);
    assert_eq!(random.pick(&[5]), Some(&5));
}
