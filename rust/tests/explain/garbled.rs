//! No input and no output makes the program fail: it explains whatever bytes they have.

use crate::support::{run, File, Trace, ABC};

/// Numbers that look random, the same in each run (xorshift64).
struct Numbers(u64);

impl Numbers {
    fn next(&mut self) -> u64 {
        self.0 ^= self.0 << 13;
        self.0 ^= self.0 >> 7;
        self.0 ^= self.0 << 17;
        self.0
    }

    fn bytes(&mut self, most: u64, of: &[u8]) -> Vec<u8> {
        let count = self.next() % most;
        let mut one = || of[(self.next() % of.len() as u64) as usize];
        (0..count).map(|_| one()).collect()
    }
}

/// Asserts that a run in either form ends as it should.
fn ends(input: &[u8], output: &[u8]) {
    let files = [File::new(input), File::new(output)];
    let bins = ["--addressing", "bins"];
    for form in [&["--json"][..], &[], &bins, &["--json", bins[0], bins[1]]] {
        let mut arguments: Vec<_> = files.iter().map(|file| file.as_ref()).collect();
        arguments.extend(form.iter().map(std::ffi::OsStr::new));
        let ran = run(&arguments);
        let shown = (ran.status, &ran.errors[..]);
        assert!(
            matches!(shown, (Some(0 | 1), "")),
            "{shown:?}: {input:?}, {output:?}"
        );
        assert!(ran.text.is_ascii());
    }
}

#[test]
fn random_bytes() {
    let mut numbers = Numbers(1);
    let all: Vec<u8> = (0..=255).collect();
    for _ in 0..60 {
        ends(&numbers.bytes(2_000, &all), &numbers.bytes(300, &all));
    }
}

#[test]
fn random_digits_and_line_feeds_behind_an_order() {
    let mut numbers = Numbers(2);
    for _ in 0..60 {
        let mut input = Trace::abc().input();
        for _ in 0..40 {
            // A clock, channel 0 or 1, then anything: types, ranges and options come about.
            let channel = numbers.next() % 2;
            input.extend(format!("{:016x}{channel:08x}", numbers.next()).into_bytes());
            let digits = numbers.bytes(120, b"0000000000000123456789abcdef");
            input.extend(&digits[..digits.len() / 2 * 2]);
            input.push(b'\n');
        }
        let output = numbers.bytes(400, b"0000123456789abcdef\n\n\n\r");
        ends(&input, &output);
    }
}

#[test]
fn bytes_of_a_good_trace_changed() {
    let mut numbers = Numbers(3);
    for seed in 0..40 {
        let mut input = second::traces::generate(seed);
        let mut output = Vec::new();
        second::replay::replay(&input[..], &mut output).expect("it writes to memory");
        for bytes in [&mut input, &mut output] {
            for _ in 0..3 {
                let place = numbers.next() as usize % bytes.len().max(1);
                let with = b"0123456789abcdefg\n"[numbers.next() as usize % 18];
                bytes
                    .get_mut(place)
                    .into_iter()
                    .for_each(|byte| *byte = with);
            }
        }
        ends(&input, &output);
    }
}

#[test]
fn largest_numbers() {
    let ff = |count| "f".repeat(count);
    let order = format!("{ABC}00008000\n");
    let frames =
        ["03", "02", "04", "08", "09", "01"].map(|kind| format!("{}{kind}{}\n", ff(24), ff(80)));
    ends((order + &frames.concat()).as_bytes(), ff(4_000).as_bytes());
    ends(format!("{}\n", ff(72)).as_bytes(), b"ffffff\n");
}
