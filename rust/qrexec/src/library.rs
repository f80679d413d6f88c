//! The proved library, through its C interface c/qrexec.h.

/// The numbers of a reader, which only the library changes. It refuses numbers of no reader, so any are allowed.
#[repr(C)]
#[derive(Clone, Copy, Debug, Default, PartialEq, Eq)]
pub struct Reader {
    pub at: u64,
    pub kind: u32,
    pub len: u32,
    pub channel: u32,
    pub fault: u32,
}

/// Where a text lies in a message.
#[repr(C)]
#[derive(Clone, Copy, Debug, Default)]
pub struct Span {
    at: u32,
    len: u32,
}

impl Span {
    /// The text, in the bytes that the message begins.
    pub fn of(self, bytes: &[u8]) -> &[u8] {
        &bytes[self.at as usize..][..self.len as usize]
    }
}

/// A message as numbers and places.
#[repr(C)]
#[derive(Clone, Copy, Debug, Default)]
pub struct Found {
    pub kind: u32,
    pub len: u32,
    pub first: u32,
    pub second: u32,
    pub target: Span,
    pub ident: Span,
    pub text: Span,
}

/// The numbers of a side of a call.
#[repr(C)]
#[derive(Clone, Copy, Debug, Default, PartialEq, Eq)]
pub struct Session {
    pub reader: Reader,
    pub side: u32,
    pub own: u32,
    pub version: u32,
    greeted: u32,
    ended: [u32; 3],
    exited: u32,
    code: i32,
    pub fault: u32,
}

const _: () =
    assert!(size_of::<Reader>() == 24 && size_of::<Found>() == 40 && size_of::<Session>() == 64);

/// A slice as C takes it: a pointer and a length. The pointer of an empty one is never read.
type Bytes = *const u8;

#[link(name = "qrexec_c", kind = "static")]
unsafe extern "C" {
    fn qrexec_next(reader: &mut Reader, bytes: Bytes, len: usize, found: &mut Found) -> u32;
    fn qrexec_session_init(session: &mut Session, side: u32, version: u32) -> bool;
    fn qrexec_session_next(
        session: &mut Session,
        bytes: Bytes,
        len: usize,
        found: &mut Found,
    ) -> u32;
    fn qrexec_session_sent(session: &mut Session, kind: u32, len: u32) -> bool;
    fn qrexec_put_hello(out: *mut u8, room: usize, version: u32) -> usize;
    fn qrexec_put_stdin(out: *mut u8, room: usize, bytes: Bytes, len: usize) -> usize;
    fn qrexec_put_stdout(out: *mut u8, room: usize, bytes: Bytes, len: usize) -> usize;
    fn qrexec_put_stderr(out: *mut u8, room: usize, bytes: Bytes, len: usize) -> usize;
    fn qrexec_put_exit_code(out: *mut u8, room: usize, code: i32) -> usize;
    fn qrexec_put_exec(
        out: *mut u8,
        room: usize,
        domain: u32,
        port: u32,
        line: Bytes,
        len: usize,
    ) -> usize;
    fn qrexec_put_just_exec(
        out: *mut u8,
        room: usize,
        domain: u32,
        port: u32,
        line: Bytes,
        len: usize,
    ) -> usize;
    fn qrexec_put_connect(
        out: *mut u8,
        room: usize,
        domain: u32,
        port: u32,
        ident: Bytes,
        len: usize,
    ) -> usize;
    fn qrexec_put_refused(out: *mut u8, room: usize, ident: Bytes, len: usize) -> usize;
    fn qrexec_put_terminated(out: *mut u8, room: usize, domain: u32, port: u32) -> usize;
    fn qrexec_put_trigger3(
        out: *mut u8,
        room: usize,
        target: Bytes,
        target_len: usize,
        ident: Bytes,
        ident_len: usize,
        service: Bytes,
        service_len: usize,
    ) -> usize;
    fn qrexec_put_trigger(
        out: *mut u8,
        room: usize,
        target: Bytes,
        target_len: usize,
        ident: Bytes,
        ident_len: usize,
        service: Bytes,
        service_len: usize,
    ) -> usize;
}

// SAFETY of all: the declarations match c/qrexec.h, the functions accept any numbers and any bytes, and a pointer and
// a length are those of one slice, which is borrowed for the call alone.

pub fn next(reader: &mut Reader, bytes: &[u8], found: &mut Found) -> u32 {
    unsafe { qrexec_next(reader, bytes.as_ptr(), bytes.len(), found) }
}

pub fn session(side: u32, version: u32) -> Session {
    let mut session = Session::default();
    unsafe { qrexec_session_init(&mut session, side, version) };
    session
}

pub fn session_next(session: &mut Session, bytes: &[u8], found: &mut Found) -> u32 {
    unsafe { qrexec_session_next(session, bytes.as_ptr(), bytes.len(), found) }
}

pub fn session_sent(session: &mut Session, kind: u32, len: u32) -> bool {
    unsafe { qrexec_session_sent(session, kind, len) }
}

pub fn put(out: &mut [u8], message: &crate::Message) -> usize {
    use crate::Message::*;
    let (to, room) = (out.as_mut_ptr(), out.len());
    let (at, len) = (<[u8]>::as_ptr, <[u8]>::len);
    unsafe {
        match *message {
            Hello { version } => qrexec_put_hello(to, room, version),
            Stdin(bytes) => qrexec_put_stdin(to, room, at(bytes), len(bytes)),
            Stdout(bytes) => qrexec_put_stdout(to, room, at(bytes), len(bytes)),
            Stderr(bytes) => qrexec_put_stderr(to, room, at(bytes), len(bytes)),
            ExitCode(code) => qrexec_put_exit_code(to, room, code),
            Exec { domain, port, line } => {
                qrexec_put_exec(to, room, domain, port, at(line), len(line))
            }
            JustExec { domain, port, line } => {
                qrexec_put_just_exec(to, room, domain, port, at(line), len(line))
            }
            Connect {
                domain,
                port,
                ident,
            } => qrexec_put_connect(to, room, domain, port, at(ident), len(ident)),
            Refused { ident } => qrexec_put_refused(to, room, at(ident), len(ident)),
            Terminated { domain, port } => qrexec_put_terminated(to, room, domain, port),
            Trigger3 {
                target,
                ident,
                service,
            } => qrexec_put_trigger3(
                to,
                room,
                at(target),
                len(target),
                at(ident),
                len(ident),
                at(service),
                len(service),
            ),
            Trigger {
                target,
                ident,
                service,
            } => qrexec_put_trigger(
                to,
                room,
                at(target),
                len(target),
                at(ident),
                len(ident),
                at(service),
                len(service),
            ),
        }
    }
}
