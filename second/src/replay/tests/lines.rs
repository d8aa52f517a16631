//! Lines, line one and the closing line.

use super::*;

#[test]
fn the_example_of_01() {
    let zeros = "00".repeat(32);
    let options = format!("00010101020020{zeros}0301040206020900000400ff");
    let input = format!(
        "{zeros}00000001\n{:016x}000000000000000011{options}\n{:016x}00000022\n",
        0, 0
    );
    let wanted = "\
000000001100000000010001010102002000000000000000000000000000000000000000000000000000000000000000000301040206020900000400ff
05
f00000
";
    assert_eq!(answer(input.as_bytes()), wanted);
    // 122 digits.
    assert_eq!(wanted.lines().next().unwrap().len(), 122);
}

/// First lines that are no orders.
fn bad_orders() -> Vec<Vec<u8>> {
    let good = format!("{ABC}00000003");
    let mut bad: Vec<Vec<u8>> = vec![
        // 1: no input. An empty first line is no better.
        vec![],
        b"\n".to_vec(),
        b"\n\n".to_vec(),
        // 3
        format!("{good}\r\n").into_bytes(),
        // 71, 73, 74 and 70 digits.
        good[1..].into(),
        format!("{good}0").into(),
        format!("{good}00").into(),
        good[2..].into(),
        // 4 and 5
        format!("{ABC}00000000").into(),
        format!("{ABC}00008001").into(),
        format!("{ABC}00010003").into(),
        format!("{ABC}ffffffff").into(),
        // A blank before, between, behind.
        format!(" {good}").into(),
        format!("{ABC} 0000003").into(),
        format!("{good} ").into(),
        "0".repeat(4_112).into(),
        "0".repeat(1_000_000).into(),
    ];
    for place in [0, 35, 63, 64, 71] {
        for byte in *b"/:@G`g\0\t\x80\xff" {
            let mut line = good.clone().into_bytes();
            line[place] = byte;
            bad.push(line);
        }
    }
    bad
}

#[test]
fn a_first_line_that_is_missing_or_bad() {
    for line in bad_orders() {
        assert_eq!(answer(&line), "0c\n");
        if !line.is_empty() {
            // 6
            let all = [&line[..], b"\n", opening(7).as_bytes()].concat();
            assert_eq!(answer(&all), "0c\n");
        }
    }
}

#[test]
fn a_good_first_line_of_any_length() {
    // 2, and with its line feed 9
    assert_eq!(answer(abc().trim_end().as_bytes()), "f00000\n");
    assert_eq!(answer(abc().as_bytes()), "f00000\n");
    // 7
    let upper = abc().to_uppercase();
    assert_eq!(answer(upper.as_bytes()), "f00000\n");
    // 5: 1, 32,768.
    for length in ["00000001", "00000400", "00000401", "00008000"] {
        assert_eq!(answer(format!("{ABC}{length}").as_bytes()), "f00000\n");
    }
}

#[test]
fn lines_that_are_no_frames() {
    let clock = "0000000000000000";
    let bad: Vec<Vec<u8>> = vec![
        // 8
        vec![],
        // Under 16 digits, and 14: 17 and 25.
        b"0".to_vec(),
        b"00".to_vec(),
        clock[1..].into(),
        clock[2..].into(),
        format!("{clock}0").into(),
        format!("{clock}000000010").into(),
        // 16: 4,113 and 4,114 digits.
        "0".repeat(4_113).into(),
        "0".repeat(4_114).into(),
        "0".repeat(4_116).into(),
        // 17
        "0".repeat(200_000).into(),
        "x".repeat(3_000_000).into(),
        vec![0; 100_000],
        // 19
        format!("0x{clock}00000001").into(),
        format!("{clock} 00000001").into(),
        format!(" {clock}00000001").into(),
        format!("{clock}00000001\r").into(),
        format!("{clock}00000001 ").into(),
        format!("{clock}00000001\0").into(),
        format!("{}\r", "0".repeat(4_111)).into(),
    ];
    for line in bad {
        // The next line is read from its own start.
        let middle = [abc().as_bytes(), &line, b"\n", opening(7).as_bytes()].concat();
        assert_eq!(answer(&middle), format!("0f\n{}f00000\n", opened(7, 1)));
        let last = [abc().as_bytes(), opening(7).as_bytes(), &line].concat();
        let wanted = if line.is_empty() { "" } else { "0f\n" };
        assert_eq!(answer(&last), format!("{}{wanted}f00000\n", opened(7, 1)));
    }
}

#[test]
fn any_character_that_is_no_digit() {
    // 18
    let good = b"000000000000000000000001";
    for byte in (0..=255).filter(|byte| *byte != b'\n') {
        let digit = b"0123456789abcdefABCDEF".contains(&byte);
        for place in [0, 15, 16, 22] {
            let mut line = *good;
            line[place] = byte;
            let input = [abc().as_bytes(), &line].concat();
            let wanted = if digit {
                "05\nf00000\n"
            } else {
                "0f\nf00000\n"
            };
            assert_eq!(answer(&input), wanted, "{byte} at {place}");
        }
    }
}

#[test]
fn line_feeds_at_the_end() {
    let input = format!("{}{}", abc(), opening(7));
    let wanted = format!("{}f00000\n", opened(7, 1));
    // 9 and 10
    assert_eq!(answer(input.as_bytes()), wanted);
    assert_eq!(answer(input.trim_end().as_bytes()), wanted);
    // 11
    let two = format!("{input}\n");
    assert_eq!(
        answer(two.as_bytes()),
        format!("{}0f\nf00000\n", opened(7, 1))
    );
    assert_eq!(answer(format!("{}\n", abc()).as_bytes()), "0f\nf00000\n");
    assert_eq!(
        answer(format!("{}\n\n\n", abc()).as_bytes()),
        "0f\n0f\n0f\nf00000\n"
    );
}

#[test]
fn datagrams_of_few_bytes_and_of_most() {
    // 12 and 13
    for digits in ["", "00", "0000", "000000"] {
        let input = format!("{}{:016x}{digits}\n", abc(), 0);
        assert_eq!(answer(input.as_bytes()), "01\nf00000\n");
    }
    // 15: 2,044 CHOKEs to channel 1.
    let most = line(0, &to(1, &[&[10; 2044]]));
    assert_eq!(most.trim_end().len(), 4_112);
    let input = format!("{}{most}{}{most}", abc(), opening(7));
    assert_eq!(
        answer(input.as_bytes()),
        format!("05\n{}00\nf00000\n", opened(7, 1))
    );
}

#[test]
fn replies_are_in_lower_case() {
    // 20
    let mixed: String = opening(0xabcd_ef01)
        .char_indices()
        .map(|(place, digit)| match place % 3 {
            0 => digit.to_ascii_uppercase(),
            _ => digit,
        })
        .collect();
    let wanted = format!("{}f00000\n", opened(0xabcd_ef01, 1));
    for opening in [mixed, opening(0xabcd_ef01).to_uppercase()] {
        assert_eq!(answer(format!("{}{opening}", abc()).as_bytes()), wanted);
    }
}

/// An input that gives one byte at a time, and now and then is interrupted.
struct Slow<'a>(&'a [u8], bool);

impl io::Read for Slow<'_> {
    fn read(&mut self, buffer: &mut [u8]) -> io::Result<usize> {
        self.1 = !self.1;
        if self.1 {
            return Err(io::ErrorKind::Interrupted.into());
        }
        let count = self.0.len().min(buffer.len()).min(1);
        buffer[..count].copy_from_slice(&self.0[..count]);
        self.0 = &self.0[count..];
        Ok(count)
    }
}

#[test]
fn how_the_input_comes_does_not_matter() {
    let input = format!("{}{}\n{}", abc(), opening(7), "0".repeat(5_000));
    let mut output = Vec::new();
    let slow = io::BufReader::new(Slow(input.as_bytes(), false));
    replay(slow, &mut output).unwrap();
    let wanted = format!("{}0f\n0f\nf00000\n", opened(7, 1));
    assert_eq!(String::from_utf8(output).unwrap(), wanted);
}

/// An input that ends between its parts, as a terminal may.
struct Ending(Vec<&'static [u8]>);

impl io::Read for Ending {
    fn read(&mut self, buffer: &mut [u8]) -> io::Result<usize> {
        match self.0.pop() {
            Some(part) => part.take(part.len() as u64).read(buffer),
            None => Ok(0),
        }
    }
}

#[test]
fn nothing_is_read_behind_the_end() {
    let more: &[u8] = b"ff\n";
    for end in [b"00\n".as_slice(), b"00"] {
        let input = Ending(vec![more, b"", end]);
        let mut lines = Lines::new(io::BufReader::new(input), 10);
        assert_eq!(lines.next().unwrap(), Some(&b"00"[..]));
        assert_eq!(lines.next().unwrap(), None);
        assert_eq!(lines.next().unwrap(), None);
    }
}

#[test]
fn errors_of_input_and_output_are_passed_on() {
    struct Broken;
    impl io::Read for Broken {
        fn read(&mut self, _: &mut [u8]) -> io::Result<usize> {
            Err(io::ErrorKind::ConnectionReset.into())
        }
    }
    let error = replay(io::BufReader::new(Broken), Vec::new()).unwrap_err();
    assert_eq!(error.kind(), io::ErrorKind::ConnectionReset);
    let error = replay(&b""[..], &mut [0; 2][..]).unwrap_err();
    assert_eq!(error.kind(), io::ErrorKind::WriteZero);
}
