//! Lines, and the bytes that hexadecimal digits name.

/// The lines of a file: each ends at a line feed or at the end; nothing behind the last line feed is no line.
pub fn lines(file: &[u8]) -> impl Iterator<Item = &[u8]> {
    let lines = file.split_inclusive(|&byte| byte == b'\n');
    lines.map(|line| line.strip_suffix(b"\n").unwrap_or(line))
}

/// The bytes of digits of either case; none where there is another character or an odd number of them.
pub fn bytes(digits: &[u8]) -> Option<Vec<u8>> {
    let pairs = digits.chunks(2);
    pairs
        .map(|pair| match *pair {
            [high, low] => Some(value(high)? << 4 | value(low)?),
            _ => None,
        })
        .collect()
}

/// The value of a digit.
fn value(digit: u8) -> Option<u8> {
    // Below 16.
    char::from(digit).to_digit(16).map(|value| value as u8)
}

/// Bytes in digits.
pub fn encode(bytes: &[u8]) -> String {
    bytes.iter().map(|byte| format!("{byte:02x}")).collect()
}

/// The first character that is no digit, in words.
pub fn other_character(line: &[u8]) -> Option<String> {
    let place = line.iter().position(|&byte| value(byte).is_none())?;
    let name = match line[place] {
        b'\r' => "a carriage return".to_string(),
        b'\t' => "a tab".to_string(),
        b' ' => "a space".to_string(),
        byte if byte.is_ascii_graphic() => format!("'{}'", char::from(byte)),
        byte => format!("the byte {byte:02x}"),
    };
    let number = place + 1;
    Some(format!(
        "character {number} is {name}, no hexadecimal digit"
    ))
}
