//! The outermost layer of files: lines of lowercase hexadecimal digits, each
//! closed by a newline, one frame a line.

/// Cuts the input after every newline. Bytes after the last newline come out
/// as a line as well, so that `decode` can refuse them at their own number.
pub fn lines(input: &[u8]) -> impl Iterator<Item = &[u8]> {
    input.split_inclusive(|&byte| byte == b'\n')
}

/// Puts the bytes of one line into `frame`, which is reused from line to line
/// to spare an allocation each. Gives None if the line breaks the rule on
/// digits or the newline.
pub fn decode(line: &[u8], frame: &mut Vec<u8>) -> Option<()> {
    let digits = line.strip_suffix(b"\n")?;
    if digits.is_empty() || digits.len() % 2 != 0 {
        return None;
    }
    frame.clear();
    for pair in digits.chunks_exact(2) {
        frame.push(digit(pair[0])? << 4 | digit(pair[1])?);
    }
    Some(())
}

fn digit(byte: u8) -> Option<u8> {
    match byte {
        b'0'..=b'9' => Some(byte - b'0'),
        b'a'..=b'f' => Some(byte - b'a' + 10),
        _ => None,
    }
}

/// Writes one frame as a line at the end of `output`.
pub fn encode(frame: &[u8], output: &mut Vec<u8>) {
    const DIGITS: &[u8; 16] = b"0123456789abcdef";
    for &byte in frame {
        output.push(DIGITS[usize::from(byte >> 4)]);
        output.push(DIGITS[usize::from(byte & 15)]);
    }
    output.push(b'\n');
}
