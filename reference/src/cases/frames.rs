//! Many cases in one text: for each a row with its length in bytes, then
//! exactly that many bytes.

use super::Kind;

pub fn write_frame(text: &mut Vec<u8>, case: &[u8]) {
    text.extend_from_slice(format!("{}\n", case.len()).as_bytes());
    text.extend_from_slice(case);
}

/// The first case of a text and what stands behind it.
fn first(text: &[u8]) -> Option<(&[u8], &[u8])> {
    let end = text.iter().position(|&b| b == b'\n')?;
    let digits = std::str::from_utf8(&text[..end]).ok()?;
    if !digits.bytes().all(|b| b.is_ascii_digit()) {
        return None;
    }
    let size: usize = digits.parse().ok()?;
    let rest = &text[end + 1..];
    (size <= rest.len()).then(|| rest.split_at(size))
}

/// A row `case,K` and the output for each case; a broken frame ends the run.
pub fn run(kind: Kind, text: &[u8]) -> Vec<u8> {
    let mut out = Vec::new();
    let mut rest = text;
    for k in 0.. {
        if rest.is_empty() {
            break;
        }
        let Some((case, behind)) = first(rest) else {
            out.extend_from_slice(b"bad frame\n");
            break;
        };
        out.extend_from_slice(format!("case,{k}\n").as_bytes());
        out.extend_from_slice(&kind.output(case));
        rest = behind;
    }
    out
}
