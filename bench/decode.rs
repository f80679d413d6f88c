//! Makes the text of `vchan decode` by std: one pass over the input, a table of digits, and one buffer for the stream.
//!
//! usage: decode control|data < INPUT
use std::fmt::Write as _;
use std::io::{Read, Write, stdin, stdout};
use std::process::ExitCode;

const MOST_LINES: usize = 65_536;
const MOST_BYTES: usize = 8_388_608;
const NO_DIGIT: u8 = 255;

const VALUES: [u8; 256] = {
    let mut values = [NO_DIGIT; 256];
    let mut byte = 0;
    while byte < 256 {
        values[byte] = match byte as u8 {
            c @ b'0'..=b'9' => c - b'0',
            c @ b'a'..=b'f' => c - b'a' + 10,
            c @ b'A'..=b'F' => c - b'A' + 10,
            _ => NO_DIGIT,
        };
        byte += 1;
    }
    values
};

const PAIRS: [[u8; 2]; 256] = {
    let digits = b"0123456789abcdef";
    let mut pairs = [[0; 2]; 256];
    let mut byte = 0;
    while byte < 256 {
        pairs[byte] = [digits[byte >> 4], digits[byte & 15]];
        byte += 1;
    }
    pairs
};

#[derive(Clone, Copy)]
enum Kind {
    BadHex,
    TooManyLines,
    TooManyBytes,
}

fn push_bytes(out: &mut Vec<u8>, word: &[u8]) -> Option<()> {
    if word == b"-" {
        return Some(());
    }
    if let [high, low, b'*', count @ ..] = word {
        let (high, low) = (VALUES[*high as usize], VALUES[*low as usize]);
        if high == NO_DIGIT || low == NO_DIGIT || count.is_empty() || count[0] == b'0' {
            return None;
        }
        let mut times = 0usize;
        for digit in count {
            if !digit.is_ascii_digit() {
                return None;
            }
            times = times * 10 + usize::from(digit - b'0');
            if times > 2_097_152 {
                return None;
            }
        }
        out.resize(out.len() + times, high << 4 | low);
        return Some(());
    }
    if word.is_empty() || word.len() % 2 != 0 {
        return None;
    }
    let start = out.len();
    out.resize(start + word.len() / 2, 0);
    let mut all = 0;
    for (byte, pair) in out[start..].iter_mut().zip(word.chunks_exact(2)) {
        let (high, low) = (VALUES[pair[0] as usize], VALUES[pair[1] as usize]);
        all |= high | low;
        *byte = high << 4 | low;
    }
    (all != NO_DIGIT).then_some(())
}

fn stream_of(input: &[u8]) -> Result<Vec<u8>, (usize, Kind)> {
    let mut stream = Vec::with_capacity(input.len() / 2);
    let body = input.strip_suffix(b"\n").unwrap_or(input);
    if input.is_empty() {
        return Ok(stream);
    }
    for (line, number) in body.split(|byte| *byte == b'\n').zip(1..) {
        if number > MOST_LINES {
            return Err((number, Kind::TooManyLines));
        }
        if line.is_empty() || line[0] == b'#' {
            continue;
        }
        push_bytes(&mut stream, line).ok_or((number, Kind::BadHex))?;
        if stream.len() > MOST_BYTES {
            return Err((number, Kind::TooManyBytes));
        }
    }
    Ok(stream)
}

fn u32_at(bytes: &[u8], at: usize) -> u32 {
    u32::from_le_bytes(bytes[at..at + 4].try_into().unwrap())
}

fn put_number(out: &mut Vec<u8>, number: u32) {
    let mut digits = [0; 10];
    let mut at = digits.len();
    let mut left = number;
    loop {
        at -= 1;
        digits[at] = b'0' + (left % 10) as u8;
        left /= 10;
        if left == 0 {
            break;
        }
    }
    out.extend_from_slice(&digits[at..]);
}

fn put_data(out: &mut Vec<u8>, name: &[u8], bytes: &[u8]) {
    out.extend_from_slice(name);
    put_number(out, bytes.len() as u32);
    out.push(b' ');
    if bytes.is_empty() {
        out.push(b'-');
    }
    let start = out.len();
    out.resize(start + bytes.len() * 2, 0);
    for (pair, byte) in out[start..].chunks_exact_mut(2).zip(bytes) {
        pair.copy_from_slice(&PAIRS[usize::from(*byte)]);
    }
}

fn put_text(out: &mut Vec<u8>, bytes: &[u8]) {
    let end = bytes.iter().position(|byte| *byte == 0);
    let text = &bytes[..end.unwrap_or(bytes.len())];
    if text.is_empty() {
        out.push(b'-');
    }
    out.extend(text.iter().map(|byte| match byte {
        b' '..=b'~' => *byte,
        _ => b'_',
    }));
}

fn put_place(out: &mut Vec<u8>, name: &[u8], body: &[u8]) {
    out.extend_from_slice(name);
    put_number(out, u32_at(body, 0));
    out.push(b' ');
    put_number(out, u32_at(body, 4));
}

fn put_texts(out: &mut Vec<u8>, name: &[u8], texts: [&[u8]; 3]) {
    out.extend_from_slice(name);
    for (text, place) in texts.into_iter().zip(0..) {
        if place > 0 {
            out.push(b' ');
        }
        put_text(out, text);
    }
}

/// The least and the greatest length of a type, and whether it ends with a line.
fn row_of(data: bool, kind: u32) -> Option<(u32, u32, bool)> {
    match (data, kind) {
        (_, 0x300) | (true, 0x193) => Some((4, 4, false)),
        (true, 0x190..=0x192) => Some((0, 65_536, false)),
        (false, 0x200 | 0x201) => Some((9, 65_536, true)),
        (false, 0x202) => Some((40, 40, false)),
        (false, 0x203) => Some((32, 32, false)),
        (false, 0x211) => Some((8, 8, false)),
        (false, 0x212) => Some((97, 65_536, true)),
        (false, 0x210) => Some((128, 128, false)),
        _ => None,
    }
}

fn put_message(out: &mut Vec<u8>, kind: u32, body: &[u8]) {
    match kind {
        0x300 => {
            out.extend_from_slice(b"hello ");
            put_number(out, u32_at(body, 0));
        }
        0x190 => put_data(out, b"stdin ", body),
        0x191 => put_data(out, b"stdout ", body),
        0x192 => put_data(out, b"stderr ", body),
        0x193 => {
            let code = u32_at(body, 0) as i32;
            out.extend_from_slice(if code < 0 { b"exit -" } else { b"exit " });
            put_number(out, code.unsigned_abs());
        }
        0x200 | 0x201 => {
            let name: &[u8] = if kind == 0x200 { b"exec " } else { b"just-exec " };
            put_place(out, name, body);
            out.push(b' ');
            put_text(out, &body[8..]);
        }
        0x202 => {
            put_place(out, b"connect ", body);
            out.push(b' ');
            put_text(out, &body[8..39]);
        }
        0x203 => {
            out.extend_from_slice(b"refused ");
            put_text(out, &body[..31]);
        }
        0x211 => put_place(out, b"terminated ", body),
        0x212 => put_texts(out, b"trigger3 ", [&body[..63], &body[64..95], &body[96..]]),
        _ => put_texts(out, b"trigger ", [&body[64..95], &body[96..127], &body[..63]]),
    }
    out.push(b'\n');
}

fn text_of(data: bool, stream: &[u8]) -> Vec<u8> {
    let mut out = Vec::with_capacity(stream.len() * 2 + 64);
    let mut at = 0;
    let fault = loop {
        let left = &stream[at..];
        if left.len() < 8 {
            break format!("rest {}", left.len());
        }
        let (kind, len) = (u32_at(left, 0), u32_at(left, 4));
        let Some((least, most, line)) = row_of(data, kind) else {
            break format!("fault unknown-type {at} {kind}");
        };
        if len > 65_536 {
            break format!("fault too-long {at} {kind} {len}");
        }
        if len < least || len > most {
            break format!("fault bad-length {at} {kind} {len}");
        }
        let end = 8 + len as usize;
        if left.len() < end {
            break format!("rest {}", left.len());
        }
        let body = &left[8..end];
        if line && body[body.len() - 1] != 0 {
            break format!("fault no-nul {at} {kind}");
        }
        put_message(&mut out, kind, body);
        at += end;
    };
    out.extend_from_slice(fault.as_bytes());
    out.push(b'\n');
    out
}

fn main() -> ExitCode {
    let data = match std::env::args().nth(1).as_deref() {
        Some("data") => true,
        Some("control") => false,
        _ => return ExitCode::from(2),
    };
    let mut input = Vec::new();
    if stdin().read_to_end(&mut input).is_err() {
        return ExitCode::from(3);
    }
    match stream_of(&input) {
        Ok(stream) => match stdout().write_all(&text_of(data, &stream)) {
            Ok(()) => ExitCode::SUCCESS,
            Err(_) => ExitCode::from(6),
        },
        Err((line, kind)) => {
            let kind = match kind {
                Kind::BadHex => "bad-hex",
                Kind::TooManyLines => "too-many-lines",
                Kind::TooManyBytes => "too-many-bytes",
            };
            let mut said = String::new();
            let _ = writeln!(said, "vchan: line {line}: {kind}");
            eprint!("{said}");
            ExitCode::from(5)
        }
    }
}
