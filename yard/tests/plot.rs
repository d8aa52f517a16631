//! The plot.

use crate::support::short;
use yard::plot::plot;
use yard::run::Yard;

/// The numbers behind the letters of a path.
fn numbers(path: &str, letters: &[char]) -> Vec<f64> {
    let mut parts = path.split_inclusive(char::is_alphabetic).peekable();
    let mut found = Vec::new();
    while let Some(part) = parts.next() {
        let letter = part.chars().last().expect("no part is empty");
        let Some(next) = parts.peek().filter(|_| letters.contains(&letter)) else {
            continue;
        };
        let number = next.trim_end_matches(char::is_alphabetic);
        found.push(number.parse().expect("a number"));
    }
    found
}

/// Each van has a line inside the plot's edges, which begins at 0, ends at the top, and falls with each drop-out.
#[test]
fn each_van_has_a_line() {
    let settings = short(2);
    let mut yard = Yard::new(&settings);
    yard.run();
    let svg = plot(&settings, &yard);
    let lines: Vec<&str> = svg
        .lines()
        .filter(|l| l.contains("class=\"van\""))
        .collect();
    assert_eq!(lines.len(), 8);
    let mut falls = 0;
    for line in lines {
        let path = line
            .split(" d=\"")
            .nth(1)
            .and_then(|rest| rest.split('"').next());
        let path = path.expect("a path");
        assert!(path.starts_with("M70.0 540.0"));
        let (across, heights) = (numbers(path, &['H']), numbers(path, &['V']));
        assert!(across.windows(2).all(|pair| pair[0] <= pair[1]));
        assert_eq!(across.last(), Some(&980.0));
        assert!(heights.iter().all(|height| (70.0..=540.0).contains(height)));
        assert_eq!(heights.last(), Some(&70.0));
        falls += heights.windows(2).filter(|pair| pair[1] > pair[0]).count() as u64;
    }
    assert_eq!(falls, yard.record.tally.drop_outs);
    assert_eq!(svg.matches("<circle ").count() as u64, falls);
}

#[test]
fn title_and_axes_say_what_is_plotted() {
    let settings = short(2);
    let mut yard = Yard::new(&settings);
    yard.run();
    let svg = plot(&settings, &yard);
    for wanted in [
        "8 vans, 24 chunks, seed 2, loss 20 %",
        ">simulated time in seconds<",
        ">chunks held<",
        ">20</text>",
    ] {
        assert!(svg.contains(wanted), "{wanted}");
    }
    assert_eq!(svg.matches("<svg").count(), 1);
    assert!(svg.ends_with("</svg>\n") && !svg.contains("href"));
}
