//! The messages of qrexec, the service calls of Qubes OS, read and written by the proved library crates/qrexec_c.
//!
//! Which bytes are a message, which fault a stream has and at which offset, what is written, and what each side of a
//! call may send, is proved. This crate gives the library's answers types, and is only tested. Its `unsafe` is for the
//! library's functions.
//!
//! ```
//! use qrexec_messages::{Channel, Message, Messages};
//!
//! let call = Message::Trigger3 { target: b"work-vm", ident: b"SOCKET11", service: b"qubes.Filecopy" };
//! let mut stream = [0; 300];
//! let mut len = Message::Hello { version: 3 }.write(&mut stream).expect("there is room");
//! len += call.write(&mut stream[len..]).expect("there is room, and the texts fit");
//!
//! let mut messages = Messages::new(Channel::Control, &stream[..len]);
//! assert_eq!(messages.next(), Some(Ok(Message::Hello { version: 3 })));
//! assert_eq!(messages.next(), Some(Ok(call)));
//! assert_eq!(messages.next(), None);
//! assert_eq!(messages.rest(), b"");
//! ```
use std::fmt;

mod call;
mod library;

pub use call::{Call, CallError, SessionFault, Side, Version};

/// The two kinds of channel that carry qrexec messages.
#[derive(Clone, Copy, Debug, PartialEq, Eq)]
pub enum Channel {
    /// The channel of a domain, for triggers and their answers.
    Control,
    /// The channel of one call, for its streams and its exit code.
    Data,
}

/// A message. Its bytes and texts are borrowed from where they lie; a text has no NUL.
#[derive(Clone, Copy, Debug, PartialEq, Eq)]
pub enum Message<'a> {
    /// `MSG_HELLO`
    Hello { version: u32 },
    /// `MSG_DATA_STDIN`; no bytes end the stream.
    Stdin(&'a [u8]),
    /// `MSG_DATA_STDOUT`; no bytes end the stream.
    Stdout(&'a [u8]),
    /// `MSG_DATA_STDERR`; no bytes end the stream.
    Stderr(&'a [u8]),
    /// `MSG_DATA_EXIT_CODE`
    ExitCode(i32),
    /// `MSG_EXEC_CMDLINE`
    Exec {
        domain: u32,
        port: u32,
        line: &'a [u8],
    },
    /// `MSG_JUST_EXEC`
    JustExec {
        domain: u32,
        port: u32,
        line: &'a [u8],
    },
    /// `MSG_SERVICE_CONNECT`
    Connect {
        domain: u32,
        port: u32,
        ident: &'a [u8],
    },
    /// `MSG_SERVICE_REFUSED`
    Refused { ident: &'a [u8] },
    /// `MSG_CONNECTION_TERMINATED`
    Terminated { domain: u32, port: u32 },
    /// `MSG_TRIGGER_SERVICE3`
    Trigger3 {
        target: &'a [u8],
        ident: &'a [u8],
        service: &'a [u8],
    },
    /// `MSG_TRIGGER_SERVICE`
    Trigger {
        target: &'a [u8],
        ident: &'a [u8],
        service: &'a [u8],
    },
}

impl Message<'_> {
    /// Writes the message at the front of `out`, and returns how many bytes that took. Returns `None`, and writes
    /// nothing, if and only if there is no room, or a text or the bytes don't fit, or a text has a NUL.
    pub fn write(&self, out: &mut [u8]) -> Option<usize> {
        match library::put(out, self) {
            0 => None,
            count => Some(count),
        }
    }
}

/// What is wrong with a stream: the first of these that applies. `at` is the offset of the message's first byte, modulo
/// 2^64, `kind` the number of its type and `len` the length in its header.
#[derive(Clone, Copy, Debug, PartialEq, Eq)]
pub enum Fault {
    /// The channel has no such type.
    UnknownType { at: u64, kind: u32 },
    /// The length is above 65,536.
    TooLong { at: u64, kind: u32, len: u32 },
    /// The type has no body of this length.
    BadLength { at: u64, kind: u32, len: u32 },
    /// A line or a service doesn't end with NUL.
    NoNul { at: u64, kind: u32 },
}

impl fmt::Display for Fault {
    fn fmt(&self, to: &mut fmt::Formatter<'_>) -> fmt::Result {
        match *self {
            Fault::UnknownType { at, kind } => {
                write!(to, "byte {at}: the channel has no type {kind:#x}")
            }
            Fault::TooLong { at, kind, len } => {
                write!(to, "byte {at}: a body of {len} bytes, type {kind:#x}")
            }
            Fault::BadLength { at, kind, len } => {
                write!(to, "byte {at}: type {kind:#x} has no body of {len} bytes")
            }
            Fault::NoNul { at, kind } => {
                write!(
                    to,
                    "byte {at}: the text of type {kind:#x} doesn't end with NUL"
                )
            }
        }
    }
}

impl std::error::Error for Fault {}

/// A reader of a channel's stream, for a caller that keeps the bytes.
#[derive(Clone, Debug)]
pub struct Reader(library::Reader);

impl Reader {
    /// A reader at the beginning of the stream.
    pub fn new(channel: Channel) -> Reader {
        Reader(library::Reader {
            channel: channel as u32,
            ..library::Reader::default()
        })
    }

    /// The offset in the stream of the first byte that isn't read, modulo 2^64.
    pub fn at(&self) -> u64 {
        self.0.at
    }

    /// Returns the message at the front of the bytes, which are those of the stream from [`Reader::at`] on, and how many
    /// bytes it has; or `None` if they are less than a message and show no fault.
    ///
    /// # Errors
    ///
    /// The stream's fault; each later call returns it again.
    pub fn next<'a>(&mut self, bytes: &'a [u8]) -> Result<Option<(Message<'a>, usize)>, Fault> {
        let mut found = library::Found::default();
        match library::next(&mut self.0, bytes, &mut found) {
            0 => Ok(None),
            1 => Ok(Some((message(&found, bytes), 8 + found.len as usize))),
            _ => Err(self.fault()),
        }
    }

    fn fault(&self) -> Fault {
        fault_of(&self.0)
    }
}

fn fault_of(reader: &library::Reader) -> Fault {
    let library::Reader {
        at,
        kind,
        len,
        fault,
        ..
    } = *reader;
    match fault {
        1 => Fault::UnknownType { at, kind },
        2 => Fault::TooLong { at, kind, len },
        3 => Fault::BadLength { at, kind, len },
        _ => Fault::NoNul { at, kind },
    }
}

fn message<'a>(found: &library::Found, bytes: &'a [u8]) -> Message<'a> {
    let (domain, port) = (found.first, found.second);
    let body = &bytes[8..][..found.len as usize];
    let (target, ident, text) = (
        found.target.of(bytes),
        found.ident.of(bytes),
        found.text.of(bytes),
    );
    match found.kind {
        0x190 => Message::Stdin(body),
        0x191 => Message::Stdout(body),
        0x192 => Message::Stderr(body),
        0x193 => Message::ExitCode(found.first as i32),
        0x200 => Message::Exec {
            domain,
            port,
            line: text,
        },
        0x201 => Message::JustExec {
            domain,
            port,
            line: text,
        },
        0x202 => Message::Connect {
            domain,
            port,
            ident,
        },
        0x203 => Message::Refused { ident },
        0x210 => Message::Trigger {
            target,
            ident,
            service: text,
        },
        0x211 => Message::Terminated { domain, port },
        0x212 => Message::Trigger3 {
            target,
            ident,
            service: text,
        },
        _ => Message::Hello {
            version: found.first,
        },
    }
}

/// The messages of a stream that lies in memory, in order, and then its fault, if it has one.
#[derive(Clone, Debug)]
pub struct Messages<'a> {
    reader: Reader,
    rest: &'a [u8],
    over: bool,
}

impl<'a> Messages<'a> {
    /// The messages of this channel's stream, from its first byte on.
    pub fn new(channel: Channel, stream: &'a [u8]) -> Messages<'a> {
        Messages {
            reader: Reader::new(channel),
            rest: stream,
            over: false,
        }
    }

    /// The bytes that aren't read: after the last message less than a message, or those from a fault on.
    pub fn rest(&self) -> &'a [u8] {
        self.rest
    }
}

impl<'a> Iterator for Messages<'a> {
    type Item = Result<Message<'a>, Fault>;

    fn next(&mut self) -> Option<Result<Message<'a>, Fault>> {
        if self.over {
            return None;
        }
        match self.reader.next(self.rest) {
            Ok(Some((message, len))) => {
                self.rest = &self.rest[len..];
                Some(Ok(message))
            }
            Ok(None) => {
                self.over = true;
                None
            }
            Err(fault) => {
                self.over = true;
                Some(Err(fault))
            }
        }
    }
}

/// The Rust code of the document.
#[cfg(doctest)]
#[doc = include_str!("../../../docs/QREXEC-C.md")]
struct Document;
