//! The calls that wait, streams, a mapped file, and the errors of an end.
use std::fs::{self, OpenOptions};
use std::io::{self, Read, Write};
use std::panic::{catch_unwind, AssertUnwindSafe};
use std::sync::mpsc::{channel, Receiver, Sender};
use std::thread;
use std::time::Duration;

use vchan_page::{End, Error, Events, Map, Peer, Places};

#[derive(Default)]
enum Fault {
    #[default]
    None,
    Notify,
    Panic,
}

struct Line {
    peer: Sender<()>,
    own: Receiver<()>,
    fault: Fault,
}

impl Events for Line {
    fn notify(&mut self) -> io::Result<()> {
        match self.fault {
            Fault::Notify => Err(io::ErrorKind::NotFound.into()),
            _ => {
                self.peer.send(()).ok();
                Ok(())
            }
        }
    }

    fn wait(&mut self) -> io::Result<()> {
        self.own
            .recv_timeout(Duration::from_secs(20))
            .map_err(io::Error::other)
    }

    fn take(&mut self) -> bool {
        match self.fault {
            Fault::Panic => panic!("a fault of the caller's"),
            _ => self.own.try_recv().is_ok(),
        }
    }
}

/// A page in a file, mapped by each end.
fn maps(name: &str, left: u16, right: u16) -> (Map, Map) {
    let path = std::env::temp_dir().join(format!("vchan-{name}-{}", std::process::id()));
    let file = OpenOptions::new()
        .read(true)
        .write(true)
        .create(true)
        .truncate(true)
        .open(&path)
        .unwrap();
    let made = (
        Map::lay(&file, left, right).unwrap(),
        Map::join(&file).unwrap(),
    );
    fs::remove_file(path).unwrap();
    made
}

fn ends<'page>(maps: &'page (Map, Map)) -> (End<'page, Line>, End<'page, Line>) {
    let ((to_server, from_client), (to_client, from_server)) = (channel(), channel());
    let line = |peer, own| Line {
        peer,
        own,
        fault: Fault::None,
    };
    let server = End::server(maps.0.page(), line(to_client, from_client)).unwrap();
    let mut client = End::client(maps.1.page(), line(to_server, from_server)).unwrap();
    assert_eq!((server.peer(), client.peer()), (Peer::MayCome, Peer::Open));
    client.connect().unwrap();
    assert_eq!(server.peer(), Peer::Open);
    (server, client)
}

#[test]
fn a_stream_is_read_to_its_end() {
    let maps = maps("stream", 10, 13);
    let (mut server, mut client) = ends(&maps);
    let sent: Vec<u8> = (0..100_000u32).map(|it| ((it * 7) >> 3) as u8).collect();
    let got = thread::scope(|scope| {
        scope.spawn(|| {
            client.stream().write_all(&sent).unwrap();
            client.close().unwrap();
        });
        let mut got = Vec::new();
        server.stream().read_to_end(&mut got).unwrap();
        got
    });
    assert!(got == sent);
    assert_eq!(server.peer(), Peer::Closed);
    let failed = server.stream().write(b"late").unwrap_err();
    assert_eq!(failed.kind(), io::ErrorKind::BrokenPipe);
    assert!(matches!(
        server.drain_wait(&mut [0]),
        Err(Error::PeerClosed)
    ));
}

#[test]
fn packets_wait_for_room_and_for_all_bytes() {
    let maps = maps("packets", 10, 11);
    let (mut server, mut client) = ends(&maps);
    thread::scope(|scope| {
        scope.spawn(|| {
            for number in 0..50u8 {
                client.send_wait(&[number; 700]).unwrap();
            }
        });
        for number in 0..50u8 {
            let mut got = [0; 700];
            server.recv_wait(&mut got).unwrap();
            assert!(got == [number; 700]);
        }
    });
    assert!(matches!(client.send_wait(&[0; 1025]), Err(Error::TooLong)));
    assert!(matches!(
        server.recv_wait(&mut [0; 1025]),
        Err(Error::TooLong)
    ));
    assert!(matches!(server.drain_wait(&mut []), Err(Error::BadLength)));
    assert!(matches!(client.connect(), Err(Error::Connected)));
}

#[test]
fn faults_of_the_caller_are_told() {
    let maps = maps("faults", 10, 11);
    let (mut server, mut client) = ends(&maps);
    client.events_mut().fault = Fault::Notify;
    assert!(matches!(client.write(b"abc"), Err(Error::Notify(_))));
    let mut got = [0; 8];
    assert_eq!(server.read(&mut got).unwrap(), 3);
    assert!(matches!(client.events().fault, Fault::Notify));
    client.events_mut().fault = Fault::Panic;
    assert!(catch_unwind(AssertUnwindSafe(|| client.take_event())).is_err());
    assert!(matches!(client.write(b"d"), Err(Error::InsideCall)));
}

#[test]
fn a_page_that_cannot_be_is_refused() {
    assert_eq!(
        Places::of(10, 11).unwrap(),
        Places {
            left: 1024,
            right: 2048,
            size: 4096
        }
    );
    assert_eq!(
        Places::of(13, 12).unwrap(),
        Places {
            left: 4096,
            right: 12288,
            size: 16384
        }
    );
    assert!(matches!(Places::of(11, 11), Err(Error::BadOrders)));
    let path = std::env::temp_dir().join(format!("vchan-short-{}", std::process::id()));
    fs::write(&path, [0; 4095]).unwrap();
    let file = OpenOptions::new()
        .read(true)
        .write(true)
        .open(&path)
        .unwrap();
    assert!(Map::join(&file).is_err());
    file.set_len(4096).unwrap();
    assert!(Map::join(&file).is_err()); // no orders
    Map::lay(&file, 12, 11).unwrap();
    file.set_len(4096).unwrap();
    assert!(Map::join(&file).is_err()); // cut off
    fs::remove_file(path).unwrap();
}
