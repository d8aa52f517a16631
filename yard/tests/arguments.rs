//! The arguments.

use ppspp::Addressing;
use yard::arguments::{defaults, parse, Asked};
use yard::random::Rate;
use yard::run::Settings;

fn of(line: &str) -> Result<Asked, String> {
    let arguments: Vec<String> = line.split_whitespace().map(String::from).collect();
    parse(&arguments)
}

fn settings(line: &str) -> Settings {
    match of(line) {
        Ok(Asked::Run(settings, _)) => settings,
        other => panic!("{line}: {other:?}"),
    }
}

#[test]
fn without_arguments_the_long_run_is_meant() {
    assert_eq!(settings(""), defaults());
    assert_eq!(
        settings("--vans 40 --chunks 512 --addressing ranges --loss 20 --attacker on"),
        defaults()
    );
    let attacker_off = Settings {
        attacker: false,
        ..defaults()
    };
    assert_eq!(settings("--attacker off"), attacker_off);
    let bins = Settings {
        addressing: Addressing::Bins,
        ..defaults()
    };
    assert_eq!(settings("--addressing bins"), bins);
    assert_ne!(bins, defaults());
}

#[test]
fn rates_are_per_cent() {
    assert_eq!(settings("--loss 0").faults.loss, Rate(0));
    assert_eq!(settings("--loss 100").faults.loss, Rate(1_000_000));
    assert_eq!(settings("--duplicate 2.5").faults.duplicate, Rate(25_000));
    assert_eq!(settings("--reorder 0.0001").faults.reorder, Rate(1));
    assert_eq!(settings("--truncate 7.25").faults.truncate, Rate(72_500));
    assert_eq!(settings("--flip 99.9999").faults.flip, Rate(999_999));
}

#[test]
fn numbers_have_their_limits() {
    let most = settings("--vans 500 --chunks 512 --seconds 86400 --seed 18446744073709551615");
    assert_eq!((most.vans, most.chunks, most.seconds), (500, 512, 86_400));
    assert_eq!(most.seed, u64::MAX);
    let least = settings("--vans 1 --chunks 1 --seconds 1 --seed 0");
    assert_eq!(
        (least.vans, least.chunks, least.seconds, least.seed),
        (1, 1, 1, 0)
    );
}

#[test]
fn wrong_arguments_get_a_sentence() {
    let wrong = [
        "--vans 0",
        "--vans 501",
        "--vans +5",
        "--vans",
        "--chunks 513",
        "--chunks x",
        "--addressing",
        "--addressing bin",
        "--addressing 0",
        "--seed -1",
        "--seed 18446744073709551616",
        "--loss 100.0001",
        "--loss 101",
        "--loss 1.00000",
        "--loss .5",
        "--loss 5.",
        "--flip 1e1",
        "--attacker yes",
        "--seconds 0",
        "--plot",
        "--speed 5",
        "vans",
    ];
    for line in wrong {
        let sentence = of(line).expect_err(line);
        assert!(sentence.ends_with('.'), "{sentence}");
        let name = line.split(' ').next().expect("a name");
        assert!(sentence.contains(name), "{sentence}");
    }
}

#[test]
fn help_and_plot_are_known() {
    assert_eq!(of("--vans 3 --help"), Ok(Asked::Help));
    let Ok(Asked::Run(_, Some(file))) = of("--plot held.svg") else {
        panic!("a plot was asked for");
    };
    assert_eq!(file.to_str(), Some("held.svg"));
}
