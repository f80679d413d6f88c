//! Two ends on one page, in two threads: two ends of this crate, and one of this crate beside one of c/vchan_page.h.
use std::io;
use std::sync::atomic::AtomicU8;
use std::sync::mpsc::{channel, Receiver, Sender};
use std::thread;
use std::time::Duration;

use vchan_page::{End, Error, Events, Head, Page};

/// Each signal is a message. Signals add up, unlike those of an event channel; no call depends on that.
struct Line {
    peer: Sender<()>,
    own: Receiver<()>,
}

fn line() -> (Line, Line) {
    let ((to_server, from_client), (to_client, from_server)) = (channel(), channel());
    (
        Line {
            peer: to_client,
            own: from_client,
        },
        Line {
            peer: to_server,
            own: from_server,
        },
    )
}

impl Events for Line {
    fn notify(&mut self) -> io::Result<()> {
        self.peer.send(()).ok();
        Ok(())
    }

    fn wait(&mut self) -> io::Result<()> {
        self.own
            .recv_timeout(Duration::from_secs(20))
            .map_err(io::Error::other)
    }

    fn take(&mut self) -> bool {
        self.own.try_recv().is_ok()
    }
}

fn ring(order: u32) -> Vec<AtomicU8> {
    (0..1 << order).map(|_| AtomicU8::new(0)).collect()
}

fn pattern(at: usize) -> u8 {
    ((at as u64).wrapping_mul(0x9E37_79B9_7F4A_7C15) >> 56) as u8
}

const TOTAL: usize = 1 << 18;

fn write_pattern(end: &mut End<Line>) -> Result<(), Error> {
    let bytes: Vec<u8> = (0..TOTAL).map(pattern).collect();
    bytes.chunks(777).try_for_each(|piece| end.write_all(piece))
}

fn read_pattern(end: &mut End<Line>) -> Result<(), Error> {
    let mut buffer = [0; 1000];
    let mut at = 0;
    while at < TOTAL {
        let count = end.read_wait(&mut buffer)?;
        assert!(buffer[..count]
            .iter()
            .enumerate()
            .all(|(k, byte)| *byte == pattern(at + k)));
        at += count;
    }
    Ok(())
}

#[test]
fn bytes_cross_two_threads() {
    for (left, right) in [(10, 11), (11, 10), (12, 12), (16, 13)] {
        let (head, left, right) = (
            Head::new(left, right),
            ring(left.into()),
            ring(right.into()),
        );
        let page = Page {
            head: &head,
            left: &left,
            right: &right,
        };
        let (one, two) = line();
        let mut server = End::server(page, one).unwrap();
        let mut client = End::client(page, two).unwrap();
        assert!(matches!(client.write(b"a"), Err(Error::NotConnected)));
        client.connect().unwrap();
        thread::scope(|scope| {
            scope.spawn(|| {
                read_pattern(&mut server).unwrap();
                write_pattern(&mut server).unwrap();
                server.close().unwrap();
            });
            write_pattern(&mut client).unwrap();
            read_pattern(&mut client).unwrap();
        });
        assert!(!client.is_open());
        assert!(matches!(client.write(b"a"), Err(Error::PeerClosed)));
        assert!(matches!(client.drain(&mut [0]), Err(Error::PeerClosed)));
    }
}

#[test]
fn bad_pages_are_refused() {
    let (head, left, right) = (Head::new(10, 10), ring(10), ring(10));
    let page = Page {
        head: &head,
        left: &left,
        right: &right,
    };
    assert!(matches!(End::server(page, line().0), Err(Error::BadOrders)));
    let head = Head::new(10, 11);
    let page = Page {
        head: &head,
        left: &left,
        right: &right,
    };
    assert!(matches!(End::server(page, line().0), Err(Error::BadOrders)));
}

/// Beside an end of c/vchan_page.h.
#[cfg(in_repository)]
mod in_c {
    use super::*;
    use std::ffi::{c_int, c_void};

    /// Room for a struct vchan_page of c/vchan_page.h.
    #[repr(C, align(16))]
    struct CPage([u64; 32]);

    /// A struct vchan_setup of it.
    #[repr(C)]
    struct CSetup {
        role: c_int,
        state: c_int,
        front: *mut c_void,
        left: *mut c_void,
        right: *mut c_void,
        left_order: u32,
        right_order: u32,
        prod: u32,
        cons: u32,
        notify: extern "C" fn(*mut c_void) -> bool,
        take_event: Option<extern "C" fn(*mut c_void) -> bool>,
        wait_for_event: Option<extern "C" fn(*mut c_void) -> bool>,
        context: *mut c_void,
        persists: bool,
    }

    extern "C" {
        fn vchan_page_open(page: *mut CPage, with: *const CSetup) -> c_int;
        fn vchan_page_connect(page: *mut CPage) -> c_int;
        fn vchan_page_read_wait(page: *mut CPage, data: *mut c_void, size: usize) -> c_int;
        fn vchan_page_write_all(page: *mut CPage, data: *const c_void, size: usize) -> c_int;
        fn vchan_page_close(page: *mut CPage) -> c_int;
    }

    extern "C" fn notify(line: *mut c_void) -> bool {
        unsafe { &mut *line.cast::<Line>() }.notify().is_ok()
    }

    extern "C" fn wait(line: *mut c_void) -> bool {
        unsafe { &mut *line.cast::<Line>() }.wait().is_ok()
    }

    /// A client in C that sends each byte back.
    fn echo_in_c(page: Page, orders: (u16, u16), mut line: Line) {
        let mut end = CPage([0; 32]);
        let start = |ring: &[AtomicU8]| ring.as_ptr().cast_mut().cast::<c_void>();
        let with = CSetup {
            role: 1,
            state: 0,
            front: std::ptr::from_ref(page.head).cast_mut().cast::<c_void>(),
            left: start(page.left),
            right: start(page.right),
            left_order: orders.0.into(),
            right_order: orders.1.into(),
            prod: 0,
            cons: 0,
            notify,
            take_event: None,
            wait_for_event: Some(wait),
            context: (&raw mut line).cast::<c_void>(),
            persists: false,
        };
        let mut buffer = [0u8; 600];
        unsafe {
            assert_eq!(vchan_page_open(&mut end, &with), 0);
            assert_eq!(vchan_page_connect(&mut end), 0);
            let mut at = 0;
            while at < TOTAL {
                let count =
                    vchan_page_read_wait(&mut end, buffer.as_mut_ptr().cast(), buffer.len());
                assert!(count > 0);
                assert_eq!(
                    vchan_page_write_all(&mut end, buffer.as_ptr().cast(), count as usize),
                    count
                );
                at += count as usize;
            }
            assert_eq!(vchan_page_close(&mut end), 0);
        }
    }

    #[test]
    fn bytes_come_back_from_c() {
        let orders = (11, 12);
        let (head, left, right) = (Head::new(orders.0, orders.1), ring(11), ring(12));
        let page = Page {
            head: &head,
            left: &left,
            right: &right,
        };
        let (one, two) = line();
        let mut server = End::server(page, one).unwrap();
        thread::scope(|scope| {
            scope.spawn(|| echo_in_c(page, orders, two));
            let bytes: Vec<u8> = (0..TOTAL).map(pattern).collect();
            let mut back = [0; 500];
            for piece in bytes.chunks(500) {
                server.write_all(piece).unwrap();
                let mut got = 0;
                while got < piece.len() {
                    got += server.read_wait(&mut back[got..piece.len()]).unwrap();
                }
                assert_eq!(&back[..got], piece);
            }
        });
        assert!(matches!(server.drain(&mut [0]), Err(Error::PeerClosed)));
    }
}
