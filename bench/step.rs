//! Plays scripts of `vchan step` as a plain std Rust program. It takes the lines `open L R`,
//! `client write BYTES` and `server read N`, where BYTES is hexadecimal digits, or `HH*N` for one byte N
//! times. It also takes the same two calls cut into their events by `client begin write BYTES`,
//! `server begin read N`, `E step N` and `E finish`, where E is the end.
//!
//! It keeps to the protocol of libxenvchan's io.c: indices that count modulo 2^32, live bytes,
//! notify bits and pending signals. Its rings are bytes, and it copies in one piece if it can.
use std::io::{Read, Write};
use std::ops::Range;
use std::process::exit;

const WRITTEN: u8 = 1;
const CONSUMED: u8 = 2;
const MAX_INPUT: u64 = 4 << 20;
const MAX_LINES: usize = 65_536;
const MAX_PAYLOAD: usize = 8 << 20;
const MAX_NUMBER: u64 = 2_147_483_647;

struct Ring {
    prod: u32,
    cons: u32,
    bytes: Vec<u8>,
}

impl Ring {
    fn new(order: u32) -> Ring {
        Ring { prod: 0, cons: 0, bytes: vec![0; 1 << order] }
    }

    /// Where an index lies, and how many bytes there are up to the ring's end.
    fn place(&self, index: u32) -> (usize, usize) {
        let at = index as usize & (self.bytes.len() - 1);
        (at, self.bytes.len() - at)
    }

    fn put(&mut self, prod: u32, data: &[u8]) {
        let (at, end) = self.place(prod);
        let (first, second) = data.split_at(data.len().min(end));
        self.bytes[at..at + first.len()].copy_from_slice(first);
        self.bytes[..second.len()].copy_from_slice(second);
    }

    /// The bytes at an index, in at most two pieces.
    fn get(&self, cons: u32, count: usize) -> (&[u8], &[u8]) {
        let (at, end) = self.place(cons);
        let first = count.min(end);
        (&self.bytes[at..at + first], &self.bytes[..count - first])
    }
}

/// A page whose left ring the client writes. Each end keeps its own index.
struct Page {
    left: Ring,
    right: Ring,
    cli_live: u8,
    srv_live: u8,
    cli_notify: u8,
    srv_notify: u8,
    srv_pending: bool,
    cli_pending: bool,
    client_prod: u32,
    server_cons: u32,
    sent: u64,
    got: u64,
}

enum Outcome {
    Closed,
    Stuck(u32, u32),
    Moved(usize),
}

impl Page {
    fn new(left: u32, right: u32) -> Page {
        Page {
            left: Ring::new(left),
            right: Ring::new(right),
            cli_live: 1,
            srv_live: 1,
            cli_notify: WRITTEN,
            srv_notify: WRITTEN,
            srv_pending: false,
            cli_pending: false,
            client_prod: 0,
            server_cons: 0,
            sent: 0,
            got: 0,
        }
    }

    fn room(&self) -> usize {
        let size = self.left.bytes.len();
        let waiting = self.client_prod.wrapping_sub(self.left.cons) as usize;
        if waiting <= size { size - waiting } else { 0 }
    }

    fn ready(&self) -> usize {
        let waiting = self.left.prod.wrapping_sub(self.server_cons) as usize;
        if waiting <= self.left.bytes.len() { waiting } else { 0 }
    }

    fn write(&mut self, data: &[u8]) -> Outcome {
        if self.srv_live == 0 {
            return Outcome::Closed;
        }
        let mut room = self.room();
        if room < data.len() {
            self.srv_notify |= CONSUMED;
            room = self.room();
        }
        let count = data.len().min(room);
        if count == 0 {
            return Outcome::Stuck(self.client_prod, self.left.cons);
        }
        self.left.put(self.client_prod, &data[..count]);
        self.client_prod = self.client_prod.wrapping_add(count as u32);
        self.left.prod = self.client_prod;
        let asked = self.cli_notify & WRITTEN != 0;
        self.cli_notify &= !WRITTEN;
        self.srv_pending |= asked;
        self.sent += count as u64;
        Outcome::Moved(count)
    }

    /// Reads into the front of `buf`.
    fn read(&mut self, most: usize, buf: &mut [u8]) -> Outcome {
        let mut ready = self.ready();
        if ready < most {
            self.cli_notify |= WRITTEN;
            ready = self.ready();
        }
        if ready == 0 {
            if self.cli_live == 0 {
                return Outcome::Closed;
            }
            return Outcome::Stuck(self.left.prod, self.server_cons);
        }
        let count = most.min(ready);
        let (first, second) = self.left.get(self.server_cons, count);
        buf[..first.len()].copy_from_slice(first);
        buf[first.len()..count].copy_from_slice(second);
        self.server_cons = self.server_cons.wrapping_add(count as u32);
        self.left.cons = self.server_cons;
        let asked = self.srv_notify & CONSUMED != 0;
        self.srv_notify &= !CONSUMED;
        self.cli_pending |= asked;
        self.got += count as u64;
        Outcome::Moved(count)
    }
}

/// What a begun call does next. Each is one event, and of `Bytes` each byte is one.
enum Next {
    LoadLive,
    Look,
    Ask,
    LookAgain,
    Bytes { moved: usize, count: usize },
    StoreIndex { count: usize },
    Test { count: usize },
    Signal { count: usize },
}

/// A write that was begun, of those bytes of the payload.
struct BegunWrite {
    payload: Range<usize>,
    next: Next,
}

/// A read that was begun. Its bytes come into the front of the server's buffer.
struct BegunRead {
    most: usize,
    next: Next,
    /// The producer index that its last look found.
    looked: u32,
}

impl Page {
    /// Makes the next events of a write, `events` at most. Its outcome comes with its last event.
    fn step_write(&mut self, call: &mut BegunWrite, data: &[u8], mut events: usize) -> Option<Outcome> {
        while events > 0 {
            let mut made = 1;
            call.next = match call.next {
                Next::LoadLive if self.srv_live == 0 => return Some(Outcome::Closed),
                Next::LoadLive => Next::Look,
                Next::Look if self.room() < data.len() => Next::Ask,
                Next::Look | Next::LookAgain => match data.len().min(self.room()) {
                    0 => return Some(Outcome::Stuck(self.client_prod, self.left.cons)),
                    count => Next::Bytes { moved: 0, count },
                },
                Next::Ask => {
                    self.srv_notify |= CONSUMED;
                    Next::LookAgain
                }
                Next::Bytes { moved, count } => {
                    made = events.min(count - moved);
                    let at = self.client_prod.wrapping_add(moved as u32);
                    self.left.put(at, &data[moved..moved + made]);
                    match moved + made {
                        moved if moved < count => Next::Bytes { moved, count },
                        _ => Next::StoreIndex { count },
                    }
                }
                Next::StoreIndex { count } => {
                    self.client_prod = self.client_prod.wrapping_add(count as u32);
                    self.left.prod = self.client_prod;
                    self.sent += count as u64;
                    Next::Test { count }
                }
                Next::Test { count } => {
                    let asked = self.cli_notify & WRITTEN != 0;
                    self.cli_notify &= !WRITTEN;
                    if !asked {
                        return Some(Outcome::Moved(count));
                    }
                    Next::Signal { count }
                }
                Next::Signal { count } => {
                    self.srv_pending = true;
                    return Some(Outcome::Moved(count));
                }
            };
            events -= made;
        }
        None
    }

    /// Makes the next events of a read, `events` at most. Its outcome comes with its last event.
    fn step_read(&mut self, call: &mut BegunRead, buf: &mut [u8], mut events: usize) -> Option<Outcome> {
        while events > 0 {
            let mut made = 1;
            call.next = match call.next {
                Next::Look if self.ready() < call.most => Next::Ask,
                Next::Look | Next::LookAgain => {
                    call.looked = self.left.prod;
                    match (self.ready(), call.most) {
                        (0, _) => Next::LoadLive,
                        (_, 0) => Next::StoreIndex { count: 0 },
                        (ready, most) => Next::Bytes { moved: 0, count: ready.min(most) },
                    }
                }
                Next::Ask => {
                    self.cli_notify |= WRITTEN;
                    Next::LookAgain
                }
                Next::LoadLive if self.cli_live == 0 => return Some(Outcome::Closed),
                Next::LoadLive => return Some(Outcome::Stuck(call.looked, self.server_cons)),
                Next::Bytes { moved, count } => {
                    made = events.min(count - moved);
                    let at = self.server_cons.wrapping_add(moved as u32);
                    let (first, second) = self.left.get(at, made);
                    buf[moved..moved + first.len()].copy_from_slice(first);
                    buf[moved + first.len()..moved + made].copy_from_slice(second);
                    match moved + made {
                        moved if moved < count => Next::Bytes { moved, count },
                        _ => Next::StoreIndex { count },
                    }
                }
                Next::StoreIndex { count } => {
                    self.server_cons = self.server_cons.wrapping_add(count as u32);
                    self.left.cons = self.server_cons;
                    self.got += count as u64;
                    Next::Test { count }
                }
                Next::Test { count } => {
                    let asked = self.srv_notify & CONSUMED != 0;
                    self.srv_notify &= !CONSUMED;
                    if !asked {
                        return Some(Outcome::Moved(count));
                    }
                    Next::Signal { count }
                }
                Next::Signal { count } => {
                    self.cli_pending = true;
                    return Some(Outcome::Moved(count));
                }
            };
            events -= made;
        }
        None
    }
}

enum Line {
    Write { from: usize, to: usize, whole: bool },
    Read { most: u32, whole: bool },
    StepClient { events: u32 },
    StepServer { events: u32 },
}

struct Script {
    orders: (u32, u32),
    payload: Vec<u8>,
    lines: Vec<Line>,
}

fn number(word: &[u8], most: u64) -> Option<u64> {
    if word.is_empty() || word.len() > 20 || (word.len() > 1 && word[0] == b'0') {
        return None;
    }
    let mut value = 0u64;
    for &digit in word {
        let digit = digit.wrapping_sub(b'0');
        if digit > 9 {
            return None;
        }
        value = value.checked_mul(10)?.checked_add(u64::from(digit))?;
    }
    (value <= most).then_some(value)
}

const fn digit_values() -> [u8; 256] {
    let mut values = [255; 256];
    let mut i = 0;
    while i < 10 {
        values[b'0' as usize + i] = i as u8;
        i += 1;
    }
    let mut i = 0;
    while i < 6 {
        values[b'a' as usize + i] = 10 + i as u8;
        values[b'A' as usize + i] = 10 + i as u8;
        i += 1;
    }
    values
}

static DIGITS: [u8; 256] = digit_values();

fn byte(pair: &[u8]) -> Option<u8> {
    let (high, low) = (DIGITS[pair[0] as usize], DIGITS[pair[1] as usize]);
    ((high | low) < 16).then_some(high << 4 | low)
}

fn push_bytes(word: &[u8], out: &mut Vec<u8>) -> Option<()> {
    if word.len() > 3 && word[2] == b'*' {
        let count = number(&word[3..], MAX_PAYLOAD as u64).filter(|n| *n > 0)? as usize;
        if out.len() + count > MAX_PAYLOAD {
            return None;
        }
        out.resize(out.len() + count, byte(word)?);
        return Some(());
    }
    if word.is_empty() || word.len() % 2 != 0 || out.len() + word.len() / 2 > MAX_PAYLOAD {
        return None;
    }
    out.reserve(word.len() / 2);
    for pair in word.chunks_exact(2) {
        out.push(byte(pair)?);
    }
    Some(())
}

fn opening(line: &[u8]) -> Option<(u32, u32)> {
    let mut words = line.strip_prefix(b"open ")?.split(|b| *b == b' ');
    let left = number(words.next()?, 65_535)? as u32;
    let right = number(words.next()?, 65_535)? as u32;
    let fits = |order| (10..=20).contains(&order);
    let apart = left != right || left > 11;
    (words.next().is_none() && fits(left) && fits(right) && apart).then_some((left, right))
}

fn write(word: &[u8], payload: &mut Vec<u8>, whole: bool) -> Option<Line> {
    let from = payload.len();
    push_bytes(word, payload)?;
    Some(Line::Write { from, to: payload.len(), whole })
}

fn read(word: &[u8], whole: bool) -> Option<Line> {
    let most = number(word, MAX_NUMBER)? as u32;
    Some(Line::Read { most, whole })
}

/// The events that a `step` or a `finish` makes at most.
fn events(act: &[u8]) -> Option<u32> {
    if act == b"finish" {
        return Some(u32::MAX);
    }
    let events = number(act.strip_prefix(b"step ")?, MAX_NUMBER)? as u32;
    (events > 0).then_some(events)
}

fn line(line: &[u8], payload: &mut Vec<u8>) -> Option<Line> {
    if let Some(word) = line.strip_prefix(b"client write ") {
        write(word, payload, true)
    } else if let Some(word) = line.strip_prefix(b"server read ") {
        read(word, true)
    } else if let Some(word) = line.strip_prefix(b"client begin write ") {
        write(word, payload, false)
    } else if let Some(word) = line.strip_prefix(b"server begin read ") {
        read(word, false)
    } else if let Some(act) = line.strip_prefix(b"client ") {
        Some(Line::StepClient { events: events(act)? })
    } else {
        let act = line.strip_prefix(b"server ")?;
        Some(Line::StepServer { events: events(act)? })
    }
}

/// The script, or the number of its first bad line.
fn parse(input: &[u8]) -> Result<Script, usize> {
    let text = input.strip_suffix(b"\n").unwrap_or(input);
    let mut lines = text.split(|b| *b == b'\n');
    let orders = lines.next().and_then(opening).ok_or(1usize)?;
    let mut script = Script { orders, payload: Vec::new(), lines: Vec::new() };
    for (i, text) in lines.enumerate() {
        if i + 2 > MAX_LINES {
            return Err(i + 2);
        }
        script.lines.push(line(text, &mut script.payload).ok_or(i + 2)?);
    }
    Ok(script)
}

fn push_hex(bytes: &[u8], out: &mut Vec<u8>) {
    const HEX: &[u8; 16] = b"0123456789abcdef";
    if bytes.is_empty() {
        out.push(b'-');
        return;
    }
    let from = out.len();
    out.resize(from + 2 * bytes.len(), 0);
    for (pair, byte) in out[from..].chunks_exact_mut(2).zip(bytes) {
        pair[0] = HEX[usize::from(byte >> 4)];
        pair[1] = HEX[usize::from(byte & 15)];
    }
}

fn push_number(number: u64, out: &mut Vec<u8>) {
    let mut digits = [0; 20];
    let mut at = digits.len();
    let mut rest = number;
    loop {
        at -= 1;
        digits[at] = b'0' + (rest % 10) as u8;
        rest /= 10;
        if rest == 0 {
            break;
        }
    }
    out.extend_from_slice(&digits[at..]);
}

fn push_pair(text: &[u8], a: u64, between: &[u8], b: u64, out: &mut Vec<u8>) {
    out.extend_from_slice(text);
    push_number(a, out);
    out.extend_from_slice(between);
    push_number(b, out);
}

/// A page on which a script is played, and what was printed of it.
struct Player<'a> {
    page: Page,
    payload: &'a [u8],
    writing: Option<BegunWrite>,
    reading: Option<BegunRead>,
    buf: Vec<u8>,
    out: Vec<u8>,
}

impl Player<'_> {
    fn write(&mut self, payload: Range<usize>, whole: bool) {
        if self.writing.is_some() {
            self.step_client(usize::MAX);
        }
        if whole {
            let outcome = self.page.write(&self.payload[payload]);
            self.tell_client(outcome);
        } else {
            self.writing = Some(BegunWrite { payload, next: Next::LoadLive });
        }
    }

    fn read(&mut self, most: usize, whole: bool) {
        if self.reading.is_some() {
            self.step_server(usize::MAX);
        }
        if whole {
            let outcome = self.page.read(most, &mut self.buf);
            self.tell_server(outcome);
        } else {
            self.reading = Some(BegunRead { most, next: Next::Look, looked: 0 });
        }
    }

    fn step_client(&mut self, events: usize) {
        let Some(call) = &mut self.writing else {
            self.out.extend_from_slice(b"client idle\n");
            return;
        };
        let data = &self.payload[call.payload.clone()];
        if let Some(outcome) = self.page.step_write(call, data, events) {
            self.writing = None;
            self.tell_client(outcome);
        }
    }

    fn step_server(&mut self, events: usize) {
        let Some(call) = &mut self.reading else {
            self.out.extend_from_slice(b"server idle\n");
            return;
        };
        if let Some(outcome) = self.page.step_read(call, &mut self.buf, events) {
            self.reading = None;
            self.tell_server(outcome);
        }
    }

    // Inlined, as in a program that plays whole calls alone: an answer is told right where it comes.
    #[inline(always)]
    fn tell_client(&mut self, outcome: Outcome) {
        match outcome {
            Outcome::Closed => self.out.extend_from_slice(b"client peer-closed"),
            Outcome::Stuck(prod, cons) => {
                push_pair(b"client full ", prod.into(), b" ", cons.into(), &mut self.out);
            }
            Outcome::Moved(count) => {
                self.out.extend_from_slice(b"client wrote ");
                push_number(count as u64, &mut self.out);
            }
        }
        self.out.push(b'\n');
    }

    #[inline(always)]
    fn tell_server(&mut self, outcome: Outcome) {
        match outcome {
            Outcome::Closed => self.out.extend_from_slice(b"server peer-closed"),
            Outcome::Stuck(prod, cons) => {
                push_pair(b"server empty ", prod.into(), b" ", cons.into(), &mut self.out);
            }
            Outcome::Moved(count) => {
                self.out.extend_from_slice(b"server read ");
                push_hex(&self.buf[..count], &mut self.out);
            }
        }
        self.out.push(b'\n');
    }
}

fn play(script: &Script) -> Vec<u8> {
    let page = Page::new(script.orders.0, script.orders.1);
    let buf = vec![0; page.left.bytes.len()];
    let payload = &script.payload;
    let mut player = Player { page, payload, writing: None, reading: None, buf, out: Vec::new() };
    for line in &script.lines {
        match *line {
            Line::Write { from, to, whole } => player.write(from..to, whole),
            Line::Read { most, whole } => player.read(most as usize, whole),
            Line::StepClient { events } => player.step_client(events as usize),
            Line::StepServer { events } => player.step_server(events as usize),
        }
    }
    let Player { page, mut out, .. } = player;
    push_pair(b"left sent ", page.sent, b" got ", page.got, &mut out);
    out.push(b'\n');
    push_pair(b"right sent ", page.right.prod.into(), b" got ", page.right.cons.into(), &mut out);
    out.push(b'\n');
    out
}

fn main() {
    let mut input = Vec::new();
    let read = std::io::stdin().lock().take(MAX_INPUT + 1).read_to_end(&mut input);
    if read.is_err() || input.len() as u64 > MAX_INPUT {
        eprintln!("step: no input");
        exit(1);
    }
    match parse(&input) {
        Ok(script) => {
            if std::io::stdout().lock().write_all(&play(&script)).is_err() {
                exit(1);
            }
        }
        Err(line) => {
            eprintln!("step: line {line}: bad-line");
            exit(2);
        }
    }
}
