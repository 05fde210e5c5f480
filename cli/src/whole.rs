//! What may be wrong with a text as a whole, whichever entry it is for.

use crate::refusals::{Fault, Found};

/// The marks that editors put before a text to tell its encoding.
const MARKS: [&[u8]; 3] = [b"\xef\xbb\xbf", b"\xff\xfe", b"\xfe\xff"];

/// The text's lines, each with its line feed.
pub fn lines(bytes: &[u8]) -> Vec<&[u8]> {
    bytes.split_inclusive(|&byte| byte == b'\n').collect()
}

/// What stands behind the key in the line, if it has that key.
pub fn value<'a>(line: &'a [u8], key: &str) -> Option<&'a [u8]> {
    let line = line.strip_suffix(b"\n").unwrap_or(line);
    line.strip_prefix(key.as_bytes())?.strip_prefix(b"=")
}

/// Too many bytes, or another encoding.
pub fn in_whole(bytes: &[u8], most: usize) -> Option<Found> {
    let fault = match bytes.len() > most {
        true => Fault::Long,
        false if is_foreign(bytes) => Fault::Mark,
        false => return None,
    };
    Some(Found::new(fault, "the whole text".to_owned(), Vec::new()))
}

/// The first line that ends the Windows way.
pub fn in_ends(lines: &[&[u8]]) -> Option<Found> {
    let returned = lines.iter().position(|line| line.ends_with(b"\r\n"))?;
    let place = format!("line {}", returned + 1);
    Some(Found::new(Fault::Windows, place, Vec::new()))
}

/// Whether the text begins with such a mark or holds bytes 0, as other encodings do.
fn is_foreign(bytes: &[u8]) -> bool {
    MARKS.iter().any(|mark| bytes.starts_with(mark)) || bytes.contains(&0)
}

/// Whether these are digits of a number without a needless 0 in front.
pub fn is_number(digits: &[u8]) -> bool {
    let is_plain = !digits.is_empty() && digits.iter().all(u8::is_ascii_digit);
    is_plain && (digits == b"0" || digits[0] != b'0')
}
