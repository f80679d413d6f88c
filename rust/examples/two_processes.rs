//! Sends a file both ways between two processes, over a page in a memfd, with an eventfd each to be signalled by:
//!
//! ```sh
//! cargo run --example two_processes -- [--kill] FILE
//! ```
//!
//! The processes are children of this one, which stands for Xen: where one of them dies, it clears that one's live byte
//! and signals the other. With `--kill` the client dies when it has sent half of the file; the server then ends with
//! what it got.
use std::env;
use std::error::Error;
use std::ffi::{c_char, c_int, c_uint};
use std::fs::{self, File};
use std::io::{self, Read, Write};
use std::os::fd::{AsRawFd, FromRawFd};
use std::process::{abort, Child, Command};
use std::sync::atomic::Ordering::SeqCst;
use std::thread;

use vchan_page::{End, Error::PeerClosed, Events, Map};

const LEFT_ORDER: u16 = 12;
const RIGHT_ORDER: u16 = 11;

unsafe extern "C" {
    fn memfd_create(name: *const c_char, flags: c_uint) -> c_int;
    fn eventfd(count: c_uint, flags: c_int) -> c_int;
    fn fcntl(file: c_int, command: c_int, what: c_int) -> c_int;
}

const MAY_SEAL: c_uint = 2;
const ADD_SEALS: c_int = 1033;
/// No shrinking, and no other seal: a process that touches a page that was cut off is killed.
const NO_SHRINKING: c_int = 2 | 1;

/// An end's eventfd, and its peer's.
struct EventFds {
    own: File,
    peer: File,
}

impl Events for EventFds {
    fn notify(&mut self) -> io::Result<()> {
        self.peer.write_all(&1u64.to_ne_bytes())
    }

    fn wait(&mut self) -> io::Result<()> {
        self.own.read_exact(&mut [0; 8])
    }
}

/// Sends all bytes, and gets as many of the peer: fewer, if it goes away. Both calls ask for a signal before they answer
/// that nothing can be moved, so the wait behind them misses none.
fn exchange(
    end: &mut End<EventFds>,
    bytes: &[u8],
    dies: bool,
) -> Result<Vec<u8>, vchan_page::Error> {
    let (mut got, mut sent, mut have) = (vec![0; bytes.len()], 0, 0);
    while sent < bytes.len() || have < got.len() {
        let (sent_before, had_before) = (sent, have);
        if sent < bytes.len() {
            sent = match end.write(&bytes[sent..]) {
                Err(PeerClosed) => bytes.len(),
                wrote => sent + wrote?,
            };
        }
        if dies && sent >= bytes.len() / 2 {
            abort();
        }
        if have < got.len() {
            have += match end.drain(&mut got[have..]) {
                Err(PeerClosed) => break,
                read => read?,
            };
        }
        if (sent, have) == (sent_before, had_before) {
            end.wait()?;
        }
    }
    got.truncate(have);
    Ok(got)
}

/// The life of a child: its role, three descriptors that it inherits, whether it dies, and the file.
fn be_end(words: &[String]) -> Result<(), Box<dyn Error>> {
    let [role, page, own, peer, dies, name] = words else {
        return Err("a child has six words".into());
    };
    // SAFETY: the parent left these open for this process alone.
    let inherited =
        |number: &str| Ok::<_, Box<dyn Error>>(unsafe { File::from_raw_fd(number.parse()?) });
    let (map, bytes) = (Map::join(&inherited(page)?)?, fs::read(name)?);
    let events = EventFds {
        own: inherited(own)?,
        peer: inherited(peer)?,
    };
    let mut end = match role.as_str() {
        "server" => End::server(map.page(), events)?,
        _ => End::client(map.page(), events)?,
    };
    if role == "client" {
        end.connect()?;
    }
    let got = exchange(&mut end, &bytes, dies == "true")?;
    end.close()?;
    let kind = match bytes.starts_with(&got) {
        true => "as they were sent",
        false => "others",
    };
    println!(
        "the {role} got {} of {} bytes, {kind}",
        got.len(),
        bytes.len()
    );
    Ok(())
}

/// Waits until a child ends, and tells the other end of the page.
fn see_off(mut child: Child, role: &str, map: &Map, mut other: &File) -> io::Result<()> {
    let status = child.wait()?;
    let head = map.page().head;
    let live = match role {
        "server" => &head.srv_live,
        _ => &head.cli_live,
    };
    live.store(0, SeqCst);
    other.write_all(&1u64.to_ne_bytes())?;
    if !status.success() {
        println!("the {role} died");
    }
    Ok(())
}

fn main() -> Result<(), Box<dyn Error>> {
    let words: Vec<String> = env::args().skip(1).collect();
    if words.len() > 2 {
        return be_end(&words);
    }
    let name = words.last().ok_or("usage: two_processes [--kill] FILE")?;
    // SAFETY: the name ends with a 0, and each descriptor is new; the children inherit them.
    let (page, events) = unsafe {
        let events = [eventfd(0, 0), eventfd(0, 0)].map(|it| File::from_raw_fd(it));
        (
            File::from_raw_fd(memfd_create(c"page".as_ptr(), MAY_SEAL)),
            events,
        )
    };
    let map = Map::lay(&page, LEFT_ORDER, RIGHT_ORDER)?;
    // SAFETY: the descriptor is open.
    if unsafe { fcntl(page.as_raw_fd(), ADD_SEALS, NO_SHRINKING) } != 0 {
        return Err(io::Error::last_os_error().into());
    }
    let start = |role: &str, own: &File, peer: &File| {
        let numbers = [&page, own, peer].map(|it| it.as_raw_fd().to_string());
        let dies = role == "client" && words[0] == "--kill";
        let mut child = Command::new(env::current_exe()?);
        child
            .arg(role)
            .args(numbers)
            .arg(dies.to_string())
            .arg(name)
            .spawn()
    };
    let server = start("server", &events[0], &events[1])?;
    let client = start("client", &events[1], &events[0])?;
    thread::scope(|scope| {
        let other = scope.spawn(|| see_off(client, "client", &map, &events[0]));
        see_off(server, "server", &map, &events[1])?;
        other.join().expect("it doesn't panic")
    })?;
    Ok(())
}
