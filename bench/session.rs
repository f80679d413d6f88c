//! The baseline of bench/session: the same call of `echo`, with its bytes framed and unframed by plain std.
//!
//! usage: session SIZE PIECE
//! Prints the nanoseconds that the call took, and how many bytes came back.
use std::time::Instant;

const MOST: usize = 65_536;

fn frame(kind: u32, body: &[u8], out: &mut Vec<u8>) {
    out.extend_from_slice(&kind.to_le_bytes());
    out.extend_from_slice(&(body.len() as u32).to_le_bytes());
    out.extend_from_slice(body);
}

/// One side: what it got and read, and the message that waits to go.
#[derive(Default)]
struct Side {
    got: Vec<u8>,
    read: usize,
    waiting: Vec<u8>,
    gone: usize,
}

impl Side {
    /// The type and the place of the body of the next whole message.
    fn next(&mut self) -> Option<(u32, std::ops::Range<usize>)> {
        let left = &self.got[self.read..];
        if left.len() < 8 {
            return None;
        }
        let kind = u32::from_le_bytes(left[..4].try_into().unwrap());
        let len = u32::from_le_bytes(left[4..8].try_into().unwrap()) as usize;
        if left.len() < 8 + len {
            return None;
        }
        let start = self.read + 8;
        self.read = start + len;
        Some((kind, start..start + len))
    }

    fn front(&mut self, next: impl FnOnce(&mut Vec<u8>)) -> &[u8] {
        if self.gone == self.waiting.len() {
            self.waiting.clear();
            self.gone = 0;
            next(&mut self.waiting);
        }
        &self.waiting[self.gone..]
    }
}

fn main() {
    let words: Vec<usize> = std::env::args().skip(1).map(|word| word.parse().unwrap()).collect();
    let (size, most) = (words[0], words[1]);
    let input = vec![0x61u8; size];
    let start = Instant::now();
    let (mut caller, mut serving) = (Side::default(), Side::default());
    let (mut laid, mut closed, mut greeted, mut answered, mut ended, mut over) = (0, false, false, false, false, false);
    let (mut stdout, mut given, mut given_laid): (Vec<u8>, Vec<u8>, usize) = (Vec::new(), Vec::new(), 0);
    frame(0x300, &3u32.to_le_bytes(), &mut caller.waiting);
    loop {
        let piece = caller.front(|out| {
            if greeted && laid < input.len() {
                let end = input.len().min(laid + MOST);
                frame(0x190, &input[laid..end], out);
                laid = end;
            } else if greeted && !closed {
                frame(0x190, &[], out);
                closed = true;
            }
        });
        let asked = piece.len().min(most);
        serving.got.extend_from_slice(&piece[..asked]);
        caller.gone += asked;
        while let Some((kind, body)) = serving.next() {
            match kind {
                0x300 => {
                    frame(0x300, &3u32.to_le_bytes(), &mut serving.waiting);
                    answered = true;
                }
                _ if body.is_empty() => ended = true,
                _ => given.extend_from_slice(&serving.got[body]),
            }
        }
        let piece = serving.front(|out| {
            if answered && given_laid < given.len() {
                let end = given.len().min(given_laid + MOST);
                frame(0x191, &given[given_laid..end], out);
                given_laid = end;
                if given_laid == given.len() {
                    given.clear();
                    given_laid = 0;
                }
            } else if ended && !over {
                frame(0x191, &[], out);
                frame(0x192, &[], out);
                frame(0x193, &0u32.to_le_bytes(), out);
                over = true;
            }
        });
        let back = piece.len().min(most);
        caller.got.extend_from_slice(&piece[..back]);
        serving.gone += back;
        while let Some((kind, body)) = caller.next() {
            match kind {
                0x300 => greeted = true,
                0x191 => stdout.extend_from_slice(&caller.got[body]),
                _ => {}
            }
        }
        if asked == 0 && back == 0 {
            break;
        }
    }
    println!("{} {}", start.elapsed().as_nanos(), stdout.len());
}
