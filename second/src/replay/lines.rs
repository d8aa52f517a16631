//! The lines of an input, of which none is ever kept whole if it is long.

use std::io::{self, BufRead, ErrorKind};

/// "A line ends at a line feed or at the end of input; nothing after the last
/// line feed is no line."
pub struct Lines<R> {
    input: R,
    /// The front of a line.
    front: Vec<u8>,
    /// The most bytes of the front.
    limit: usize,
    /// Whether the end of the input was met. It is not read again: a terminal
    /// would give more.
    ended: bool,
}

impl<R: BufRead> Lines<R> {
    /// Lines of which those up to `most` bytes long matter.
    pub fn new(input: R, most: usize) -> Self {
        let limit = most + 1;
        Lines {
            input,
            front: Vec::with_capacity(limit),
            limit,
            ended: false,
        }
    }

    /// The next line without its line feed. One that is too long ends with its
    /// first byte too many.
    pub fn next(&mut self) -> io::Result<Option<&[u8]>> {
        self.front.clear();
        let mut began = false;
        if self.ended {
            return Ok(None);
        }
        loop {
            let bytes = match self.input.fill_buf() {
                Ok(bytes) => bytes,
                Err(error) if error.kind() == ErrorKind::Interrupted => continue,
                Err(error) => return Err(error),
            };
            if bytes.is_empty() {
                self.ended = true;
                return Ok(began.then_some(&self.front[..]));
            }
            began = true;
            let end = line_end(bytes);
            let part = &bytes[..end.unwrap_or(bytes.len())];
            let free = self.limit - self.front.len();
            self.front.extend(&part[..part.len().min(free)]);
            let used = part.len() + usize::from(end.is_some());
            self.input.consume(used);
            if end.is_some() {
                return Ok(Some(&self.front));
            }
        }
    }
}

/// The place of the first line feed.
fn line_end(bytes: &[u8]) -> Option<usize> {
    // Block by block, without a way out of one: most have none.
    let (blocks, _) = bytes.as_chunks::<64>();
    let has_none = |block: &&[u8; 64]| {
        let has_one = |found, &byte| found | (byte == b'\n');
        !block.iter().fold(false, has_one)
    };
    let passed = 64 * blocks.iter().take_while(has_none).count();
    let rest = bytes[passed..].iter().position(|&byte| byte == b'\n');
    rest.map(|place| passed + place)
}

#[cfg(test)]
mod tests {
    use super::*;

    /// Lines of every length up to 200 bytes, in pieces of any size.
    #[test]
    fn lines_of_every_length() {
        let line = |length: usize| vec![b'0'; length];
        let input: Vec<u8> = (0..=200)
            .flat_map(|length| [line(length), vec![b'\n']].concat())
            .collect();
        for piece in [1, 7, 64, 65, 1_000, input.len()] {
            let mut lines = Lines::new(io::BufReader::with_capacity(piece, &input[..]), 150);
            for length in 0..=200 {
                let next = lines.next().unwrap().map(<[u8]>::len);
                assert_eq!(next, Some(length.min(151)));
            }
            assert_eq!(lines.next().unwrap(), None);
        }
    }
}
