//! One end of a Xen vchan on a page that is mapped already, with the proved library of crates/vchan_c.
//!
//! Which loads and stores an end makes, in which order and at which places, how many bytes move and what a call answers
//! is proved. This crate makes them, and is not proved. Its `unsafe` is for the library's functions, for [`Head::at`] and
//! for [`Map`]. Each byte of a ring is an atomic, so a peer that stores at any moment causes no undefined behaviour.
//!
//! Two processes share a [`Map`]; `examples/two_processes.rs` sends a file both ways. Within one process a page may be
//! any memory:
//!
//! ```
//! use std::sync::atomic::AtomicU8;
//! use vchan_page::{End, Events, Head, Page};
//!
//! struct NoEvents;
//! impl Events for NoEvents {
//!     fn notify(&mut self) -> std::io::Result<()> {
//!         Ok(())
//!     }
//!     fn wait(&mut self) -> std::io::Result<()> {
//!         Err(std::io::ErrorKind::Unsupported.into())
//!     }
//! }
//!
//! let ring = |order: u32| (0..1usize << order).map(|_| AtomicU8::new(0)).collect::<Vec<_>>();
//! let (head, left, right) = (Head::new(10, 11), ring(10), ring(11));
//! let page = Page { head: &head, left: &left, right: &right };
//! let mut server = End::server(page, NoEvents)?;
//! let mut client = End::client(page, NoEvents)?;
//! client.connect()?;
//! assert_eq!(client.write(b"hello")?, 5);
//! let mut got = [0; 8];
//! assert_eq!(server.read(&mut got)?, 5);
//! assert_eq!(&got[..5], b"hello");
//! # Ok::<(), vchan_page::Error>(())
//! ```
use std::fmt;
use std::io;
use std::sync::atomic::{Ordering::Relaxed, Ordering::SeqCst};

use library::{Kept, Step};
pub use page::{Head, Map, Page, Places};

mod library;
mod page;

/// The caller's event channel.
pub trait Events {
    /// Signals the peer. At an error the call returns [`Error::Notify`]; what it did on the page stays done.
    fn notify(&mut self) -> io::Result<()>;

    /// Waits for a signal of the peer, and takes it. An error ends the call that waits.
    fn wait(&mut self) -> io::Result<()>;

    /// Takes a signal of the peer without waiting, and returns whether there was one.
    fn take(&mut self) -> bool {
        false
    }
}

/// The reasons why a call failed.
#[derive(Debug)]
pub enum Error {
    /// The peer has closed. Bytes of it may still wait: only a drain tells the end of the stream.
    PeerClosed,
    /// The end isn't connected, or is shut.
    NotConnected,
    /// The end to connect is connected already.
    Connected,
    /// The end is inside a call, since one of [`Events`] panicked there.
    InsideCall,
    /// The page's two numbers aren't orders, or aren't those of the rings.
    BadOrders,
    /// A drain asked for no byte.
    BadLength,
    /// A packet is longer than its ring.
    TooLong,
    /// The peer couldn't be signalled.
    Notify(io::Error),
    /// The wait for a signal failed.
    Wait(io::Error),
}

impl fmt::Display for Error {
    fn fmt(&self, f: &mut fmt::Formatter) -> fmt::Result {
        match self {
            Error::PeerClosed => f.write_str("the peer has closed"),
            Error::NotConnected => f.write_str("the end isn't connected"),
            Error::Connected => f.write_str("the end is connected already"),
            Error::InsideCall => f.write_str("the end is inside a call"),
            Error::BadOrders => f.write_str("the page's orders are refused"),
            Error::BadLength => f.write_str("a drain needs room for a byte"),
            Error::TooLong => f.write_str("the packet is longer than its ring"),
            Error::Notify(error) => write!(f, "signalling the peer: {error}"),
            Error::Wait(error) => write!(f, "waiting for the peer: {error}"),
        }
    }
}

impl std::error::Error for Error {
    fn source(&self) -> Option<&(dyn std::error::Error + 'static)> {
        match self {
            Error::Notify(error) | Error::Wait(error) => Some(error),
            _ => None,
        }
    }
}

impl From<Error> for io::Error {
    fn from(error: Error) -> io::Error {
        match error {
            Error::Notify(error) | Error::Wait(error) => error,
            Error::PeerClosed => io::Error::new(io::ErrorKind::BrokenPipe, error),
            Error::NotConnected => io::Error::new(io::ErrorKind::NotConnected, error),
            _ => io::Error::other(error),
        }
    }
}

/// Whether an end's peer is there.
#[derive(Clone, Copy, Debug, PartialEq, Eq)]
pub enum Peer {
    /// It has closed.
    Closed,
    /// It is there.
    Open,
    /// A client may still come.
    MayCome,
}

/// Kinds of steps, as `enum vchan_kind` of c/vchan_end.h.
const ANSWER: u8 = 0;
const OR: u8 = 2;
const NOTIFY: u8 = 3;
const SWAP: u8 = 4;
const ANNOUNCE: u8 = 6;

#[derive(Clone, Copy)]
enum Call {
    Write = 1,
    Send,
    Read,
    Recv,
    Drain,
    DataReady,
    BufferSpace,
    Connect,
    Close,
    TakeEvent,
}

/// The bytes that a call moves.
enum Bytes<'bytes> {
    Out(&'bytes [u8]),
    In(&'bytes mut [u8]),
    None,
}

impl Bytes<'_> {
    fn len(&self) -> u32 {
        let len = match self {
            Bytes::Out(bytes) => bytes.len(),
            Bytes::In(bytes) => bytes.len(),
            Bytes::None => 0,
        };
        len.min(i32::MAX as usize) as u32
    }
}

/// One end of a channel.
#[derive(Debug)]
pub struct End<'page, E> {
    kept: Kept,
    page: Page<'page>,
    is_client: bool,
    events: E,
}

impl<'page, E: Events> End<'page, E> {
    /// Makes the server of a new page, whose indices are 0. Returns [`Error::BadOrders`] if the page's orders are
    /// refused or aren't those of the rings.
    pub fn server(page: Page<'page>, events: E) -> Result<End<'page, E>, Error> {
        End::with_counts(page, events, false, false, 0, 0)
    }

    /// Makes the client of a new page, which isn't connected yet. Returns errors as [`End::server`] does.
    pub fn client(page: Page<'page>, events: E) -> Result<End<'page, E>, Error> {
        End::with_counts(page, events, true, false, 0, 0)
    }

    /// Makes an end with its own counts, such as one that joins a used page: `prod` of the ring that it writes, and
    /// `cons` of the one that it reads. A client may have been connected by other means. Returns errors as
    /// [`End::server`] does.
    pub fn with_counts(
        page: Page<'page>,
        events: E,
        is_client: bool,
        is_connected: bool,
        prod: u32,
        cons: u32,
    ) -> Result<End<'page, E>, Error> {
        let orders = (
            page.head.left_order.load(SeqCst).into(),
            page.head.right_order.load(SeqCst).into(),
        );
        let state = u8::from(!is_client || is_connected);
        let kept =
            library::init(is_client.into(), state, orders, prod, cons).ok_or(Error::BadOrders)?;
        if page.left.len() != 1 << orders.0 || page.right.len() != 1 << orders.1 {
            return Err(Error::BadOrders);
        }
        Ok(End {
            kept,
            page,
            is_client,
            events,
        })
    }

    /// Writes as many bytes as have room, and returns how many; 0 if there is no room now.
    pub fn write(&mut self, bytes: &[u8]) -> Result<usize, Error> {
        Ok(self.make(Call::Write, Bytes::Out(bytes))?.unwrap_or(0))
    }

    /// Writes all bytes or none, and returns whether it wrote them.
    pub fn send(&mut self, bytes: &[u8]) -> Result<bool, Error> {
        Ok(self.make(Call::Send, Bytes::Out(bytes))?.is_some())
    }

    /// Reads as many bytes as wait and have room in `into`, and returns how many; 0 if none waits now.
    pub fn read(&mut self, into: &mut [u8]) -> Result<usize, Error> {
        Ok(self.make(Call::Read, Bytes::In(into))?.unwrap_or(0))
    }

    /// Fills `into` or reads nothing, and returns whether it filled it.
    pub fn recv(&mut self, into: &mut [u8]) -> Result<bool, Error> {
        Ok(self.make(Call::Recv, Bytes::In(into))?.is_some())
    }

    /// Reads as [`End::read`] does, but [`Error::PeerClosed`] means the end of the stream: the peer has closed, and all
    /// was read. Returns [`Error::BadLength`] if `into` is empty.
    pub fn drain(&mut self, into: &mut [u8]) -> Result<usize, Error> {
        Ok(self.make(Call::Drain, Bytes::In(into))?.unwrap_or(0))
    }

    /// Returns how many bytes wait. The end is signalled when there are more.
    pub fn data_ready(&mut self) -> Result<usize, Error> {
        Ok(self.make(Call::DataReady, Bytes::None)?.unwrap_or(0))
    }

    /// Returns how many bytes have room. The end is signalled when there is more room.
    pub fn buffer_space(&mut self) -> Result<usize, Error> {
        Ok(self.make(Call::BufferSpace, Bytes::None)?.unwrap_or(0))
    }

    /// Takes the pending signal of the peer, and returns whether there was one.
    pub fn take_event(&mut self) -> Result<bool, Error> {
        Ok(self.make(Call::TakeEvent, Bytes::None)? == Some(1))
    }

    /// Opens a client, as libxenvchan does: it asks for signals for data, and signals. Returns [`Error::BadOrders`] if
    /// the page no longer holds the orders that the end was made with, and [`Error::Connected`] if the end is open.
    pub fn connect(&mut self) -> Result<(), Error> {
        self.make(Call::Connect, Bytes::None).map(|_| ())
    }

    /// Shuts the end, and signals the peer.
    pub fn close(&mut self) -> Result<(), Error> {
        self.make(Call::Close, Bytes::None).map(|_| ())
    }

    /// Returns whether the peer is there.
    pub fn peer(&self) -> Peer {
        let role = u8::from(self.is_client);
        let live = self.page.head.byte(library::live(role)).load(SeqCst);
        match library::is_open(role, live) {
            0 => Peer::Closed,
            2 => Peer::MayCome,
            _ => Peer::Open,
        }
    }

    /// Returns whether the peer is there, or may still come.
    pub fn is_open(&self) -> bool {
        self.peer() != Peer::Closed
    }

    /// The event channel that the end was made with.
    pub fn events(&self) -> &E {
        &self.events
    }

    /// The event channel that the end was made with, for a caller that waits itself.
    pub fn events_mut(&mut self) -> &mut E {
        &mut self.events
    }

    /// Waits for a signal of the peer, and takes it. Behind a call that moved nothing none is lost: the call asked for
    /// a signal before it looked again.
    pub fn wait(&mut self) -> Result<(), Error> {
        self.events.wait().map_err(Error::Wait)
    }

    /// Writes all bytes, and waits for room. Bytes that were written before an error stay written.
    pub fn write_all(&mut self, mut bytes: &[u8]) -> Result<(), Error> {
        while !bytes.is_empty() {
            match self.write(bytes)? {
                0 => self.wait()?,
                count => bytes = &bytes[count..],
            }
        }
        Ok(())
    }

    /// Writes all bytes at once, and waits until they have room. Returns [`Error::TooLong`] if they never will.
    pub fn send_wait(&mut self, bytes: &[u8]) -> Result<(), Error> {
        self.check_packet(bytes.len(), self.is_client)?;
        while !self.send(bytes)? {
            self.wait()?;
        }
        Ok(())
    }

    /// Reads at least one byte, and waits for it. With an empty `into` it doesn't wait.
    pub fn read_wait(&mut self, into: &mut [u8]) -> Result<usize, Error> {
        loop {
            match self.read(into)? {
                0 if !into.is_empty() => self.wait()?,
                count => return Ok(count),
            }
        }
    }

    /// Fills `into`, and waits until so many bytes are there. Returns [`Error::TooLong`] if they never will be.
    pub fn recv_wait(&mut self, into: &mut [u8]) -> Result<(), Error> {
        self.check_packet(into.len(), !self.is_client)?;
        while !self.recv(into)? {
            self.wait()?;
        }
        Ok(())
    }

    /// Reads at least one byte, and waits for it; but [`Error::PeerClosed`] means the end of the stream, as in
    /// [`End::drain`]. This is the call for a loop that reads all.
    pub fn drain_wait(&mut self, into: &mut [u8]) -> Result<usize, Error> {
        loop {
            match self.drain(into)? {
                0 => self.wait()?,
                count => return Ok(count),
            }
        }
    }

    /// Returns this end as an [`io::Read`] and [`io::Write`] whose calls wait.
    pub fn stream(&mut self) -> Stream<'_, 'page, E> {
        Stream(self)
    }

    fn check_packet(&self, len: usize, is_left: bool) -> Result<(), Error> {
        let ring = match is_left {
            true => self.page.left,
            false => self.page.right,
        };
        match len <= ring.len() {
            true => Ok(()),
            false => Err(Error::TooLong),
        }
    }

    /// Makes a whole call. Returns how many bytes it moved or counted, or `None` if nothing can be moved now.
    fn make(&mut self, call: Call, mut bytes: Bytes) -> Result<Option<usize>, Error> {
        let mut step = Step::default();
        match library::begin(&mut self.kept, call as u8, bytes.len(), &mut step) {
            0 => {}
            1 => return Err(Error::InsideCall),
            4 => return Err(Error::Connected),
            5 => return Err(Error::BadLength),
            _ => return Err(Error::NotConnected),
        }
        loop {
            self.move_bytes(&step, &mut bytes);
            if step.store_width != 0 {
                self.page
                    .head
                    .store(step.store_offset, step.store_width, step.stored);
            }
            let mut signals = step.signals != 0;
            if let ANSWER | NOTIFY | ANNOUNCE = step.kind {
                signals |= self.end_call(&step);
                if signals {
                    self.events.notify().map_err(Error::Notify)?;
                }
                return answer(&step);
            }
            let value = self.awaited(&step);
            let look = match step.look_width {
                0 => 0,
                _ if value == 0 => 0,
                width => self.page.head.load(step.look_offset, width),
            };
            assert!(
                library::took(&mut self.kept, value, look, &mut step),
                "the end is inside a call"
            );
        }
    }

    fn move_bytes(&self, step: &Step, bytes: &mut Bytes) {
        let ring = if step.ring == 0 {
            self.page.left
        } else {
            self.page.right
        };
        let (at, first, second) = (step.at as usize, step.first as usize, step.second as usize);
        let places = ring[step.place as usize..]
            .iter()
            .take(first)
            .chain(ring.iter().take(second));
        match (step.moves, bytes) {
            (1, Bytes::Out(bytes)) => {
                for (place, byte) in places.zip(&bytes[at..at + first + second]) {
                    place.store(*byte, Relaxed);
                }
            }
            (2, Bytes::In(bytes)) => {
                for (place, byte) in places.zip(&mut bytes[at..at + first + second]) {
                    *byte = place.load(Relaxed);
                }
            }
            _ => {}
        }
    }

    /// Ends a call on the page, and returns whether the peer is to be signalled: where it asked, or after a connect.
    fn end_call(&mut self, step: &Step) -> bool {
        let bits = step.bits as u8;
        match step.kind {
            // an and that finds none of its bits changes nothing, so a load that finds none is that and
            NOTIFY => {
                let word = self.page.head.byte(step.offset);
                word.load(SeqCst) & bits != 0 && word.fetch_and(!bits, SeqCst) & bits != 0
            }
            ANNOUNCE => {
                self.page.head.byte(step.offset).fetch_or(bits, SeqCst);
                true
            }
            _ => false,
        }
    }

    /// Returns the value of what a step awaits, or 0. Of words that the page doesn't have, only the own signal can be
    /// set.
    fn awaited(&mut self, step: &Step) -> u64 {
        let head = self.page.head;
        match (step.kind, step.width) {
            (SWAP, 0) => self.events.take().into(),
            (_, 0) => 0,
            (OR, _) => head
                .byte(step.offset)
                .fetch_or(step.bits as u8, SeqCst)
                .into(),
            _ => head.load(step.offset, step.width),
        }
    }
}

/// What the last step of a call answers.
fn answer(step: &Step) -> Result<Option<usize>, Error> {
    match step.answer {
        1 | 3 | 5 | 9 | 10 | 14 => Ok(Some(step.answer_first as usize)),
        8 | 16 => Err(Error::PeerClosed),
        12 => Err(Error::BadOrders),
        11 | 13 => Ok(Some(0)),
        _ => Ok(None),
    }
}

/// An end as a stream of bytes: each call waits until it can move some. A read returns 0 at the end of the stream, and a
/// write fails with [`io::ErrorKind::BrokenPipe`] if the peer has closed.
#[derive(Debug)]
pub struct Stream<'end, 'page, E>(&'end mut End<'page, E>);

impl<E: Events> io::Read for Stream<'_, '_, E> {
    fn read(&mut self, into: &mut [u8]) -> io::Result<usize> {
        if into.is_empty() {
            return Ok(0);
        }
        match self.0.drain_wait(into) {
            Err(Error::PeerClosed) => Ok(0),
            other => Ok(other?),
        }
    }
}

impl<E: Events> io::Write for Stream<'_, '_, E> {
    fn write(&mut self, bytes: &[u8]) -> io::Result<usize> {
        loop {
            match self.0.write(bytes)? {
                0 if !bytes.is_empty() => self.0.wait()?,
                count => return Ok(count),
            }
        }
    }

    /// Does nothing: what was written lies in the ring.
    fn flush(&mut self) -> io::Result<()> {
        Ok(())
    }
}

/// Compiles the Rust code in docs/LIBRARY.md as a test.
#[cfg(all(doctest, in_repository))]
#[doc = include_str!("../../docs/LIBRARY.md")]
struct LibraryDocument;
