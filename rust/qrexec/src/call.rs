//! One side of a call, over a stream of bytes both ways.
use std::fmt;
use std::io::{self, Read, Write};

use crate::{fault_of, library, message, Fault, Message};

/// The length of the longest message of a data channel.
const LONGEST: usize = 65_544;

/// The two sides of a call.
#[derive(Clone, Copy, Debug, PartialEq, Eq)]
pub enum Side {
    /// It makes the call: it sends the input, and gets both outputs and the exit code.
    Caller = 0,
    /// It serves the call.
    Serving = 1,
}

/// The versions of the protocol that a side can have.
#[derive(Clone, Copy, Debug, PartialEq, Eq)]
pub enum Version {
    Two = 2,
    Three = 3,
}

/// What is wrong with the messages of the other side.
#[derive(Clone, Copy, Debug, PartialEq, Eq)]
pub enum SessionFault {
    /// Its bytes aren't messages of a data channel.
    Bytes(Fault),
    /// It may not send a message of this type after its greeting.
    WrongSide { at: u64, kind: u32 },
    /// The message's stream had ended.
    AfterEnd { at: u64, kind: u32 },
    /// Its first message is no greeting.
    NotHello { kind: u32 },
    /// Its version is below 2.
    LowVersion { version: u32 },
}

/// The reasons why a call failed.
#[derive(Debug)]
pub enum CallError {
    /// The stream of bytes failed; `UnexpectedEof` if the other side has closed it.
    Io(io::Error),
    /// The other side's messages are wrong. Each later call returns this again.
    Fault(SessionFault),
    /// The side may not send such a message now.
    NotNow,
    /// The exit code has been read.
    Over,
}

impl fmt::Display for CallError {
    fn fmt(&self, to: &mut fmt::Formatter<'_>) -> fmt::Result {
        match self {
            CallError::Io(error) => error.fmt(to),
            CallError::Fault(SessionFault::Bytes(fault)) => fault.fmt(to),
            CallError::Fault(fault) => write!(to, "the other side's messages are wrong: {fault:?}"),
            CallError::NotNow => to.write_str("such a message may not be sent now"),
            CallError::Over => to.write_str("the exit code has been read"),
        }
    }
}

impl std::error::Error for CallError {}

impl From<io::Error> for CallError {
    fn from(error: io::Error) -> CallError {
        CallError::Io(error)
    }
}

/// One side of a call. Its stream waits, as `vchan_page::End::stream` or a socket does.
///
/// Which message may come and go is decided by the proved library; that the bytes are those of the stream is only tested.
#[derive(Debug)]
pub struct Call<S> {
    stream: S,
    session: library::Session,
    /// What has come, from `at` on not read.
    input: Vec<u8>,
    at: usize,
    output: Vec<u8>,
}

impl<S: Read + Write> Call<S> {
    /// Opens a side of a call. A caller sends its greeting.
    ///
    /// # Errors
    ///
    /// Those of the stream.
    pub fn open(stream: S, side: Side, version: Version) -> Result<Call<S>, CallError> {
        let mut call = Call {
            stream,
            session: library::session(side as u32, version as u32),
            input: Vec::new(),
            at: 0,
            output: vec![0; LONGEST],
        };
        if side == Side::Caller {
            call.greet()?;
        }
        Ok(call)
    }

    /// Waits for the next message but a greeting, which the side that serves answers.
    ///
    /// # Errors
    ///
    /// Any but [`CallError::NotNow`].
    pub fn read(&mut self) -> Result<Message<'_>, CallError> {
        let mut found = self.take()?;
        while found.kind == HELLO {
            found = self.take()?;
        }
        let len = 8 + found.len as usize;
        Ok(message(&found, &self.input[self.at - len..self.at]))
    }

    /// Sends a message. One of a stream with more bytes than the version allows goes as several; one without bytes ends
    /// its stream. It first waits for the other side's greeting.
    ///
    /// # Errors
    ///
    /// Any; [`CallError::NotNow`] if a stream has ended, is the other side's, or the exit code comes before both ends.
    pub fn send(&mut self, message: Message<'_>) -> Result<(), CallError> {
        while self.session.version == 0 {
            self.take()?;
        }
        match message {
            Message::Stdin(bytes) => self.send_bytes(STDIN, bytes, |piece| Message::Stdin(piece)),
            Message::Stdout(bytes) => {
                self.send_bytes(STDIN + 1, bytes, |piece| Message::Stdout(piece))
            }
            Message::Stderr(bytes) => {
                self.send_bytes(STDIN + 2, bytes, |piece| Message::Stderr(piece))
            }
            Message::ExitCode(_) => self.put(STDIN + 3, 4, message),
            _ => Err(CallError::NotNow),
        }
    }

    /// The stream, to close it.
    pub fn into_inner(self) -> S {
        self.stream
    }

    fn greet(&mut self) -> Result<(), CallError> {
        let version = self.session.own;
        self.put(HELLO, 4, Message::Hello { version })
    }

    fn send_bytes(
        &mut self,
        kind: u32,
        bytes: &[u8],
        of: impl for<'a> Fn(&'a [u8]) -> Message<'a>,
    ) -> Result<(), CallError> {
        if bytes.is_empty() {
            return self.put(kind, 0, of(bytes));
        }
        let most = if self.session.version < 3 {
            4096
        } else {
            65_536
        };
        bytes
            .chunks(most)
            .try_for_each(|piece| self.put(kind, piece.len() as u32, of(piece)))
    }

    fn put(&mut self, kind: u32, len: u32, message: Message<'_>) -> Result<(), CallError> {
        if !library::session_sent(&mut self.session, kind, len) {
            return Err(self.fault().map_or(CallError::NotNow, CallError::Fault));
        }
        let len = message.write(&mut self.output).expect("there is room");
        Ok(self.stream.write_all(&self.output[..len])?)
    }

    // The next message, which ends at `at`.
    fn take(&mut self) -> Result<library::Found, CallError> {
        let mut found = library::Found::default();
        loop {
            match library::session_next(&mut self.session, &self.input[self.at..], &mut found) {
                0 => self.fill()?,
                1 => break,
                6 => return Err(CallError::Over),
                _ => return Err(self.fault().map_or(CallError::Over, CallError::Fault)),
            }
        }
        self.at += 8 + found.len as usize;
        if found.kind == HELLO && self.session.side == Side::Serving as u32 {
            self.greet()?;
        }
        Ok(found)
    }

    fn fill(&mut self) -> Result<(), CallError> {
        self.input.drain(..self.at);
        self.at = 0;
        let have = self.input.len();
        self.input.resize(LONGEST, 0);
        let got = self.stream.read(&mut self.input[have..]);
        self.input
            .truncate(have + got.as_ref().map_or(0, |got| *got));
        match got? {
            0 => Err(io::Error::from(io::ErrorKind::UnexpectedEof).into()),
            _ => Ok(()),
        }
    }

    fn fault(&self) -> Option<SessionFault> {
        let library::Reader {
            at, kind, fault, ..
        } = self.session.reader;
        match self.session.fault {
            0 if fault == 0 => None,
            0 => Some(SessionFault::Bytes(fault_of(&self.session.reader))),
            1 => Some(SessionFault::WrongSide { at, kind }),
            2 => Some(SessionFault::AfterEnd { at, kind }),
            3 => Some(SessionFault::NotHello { kind }),
            _ => Some(SessionFault::LowVersion {
                version: self.session.version,
            }),
        }
    }
}

const STDIN: u32 = 0x190;

const HELLO: u32 = 0x300;
