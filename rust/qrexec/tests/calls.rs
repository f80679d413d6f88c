use qrexec_messages::{Call, CallError, Fault, Message, SessionFault, Side, Version};
use std::io::{ErrorKind, Write};
use std::os::unix::net::UnixStream;
use std::thread;

#[test]
fn a_call_passes_its_streams_and_its_code() {
    for (own, other) in [
        (Version::Two, Version::Three),
        (Version::Three, Version::Three),
    ] {
        let (near, far) = UnixStream::pair().unwrap();
        let served = thread::spawn(move || {
            let mut call = Call::open(far, Side::Serving, other).unwrap();
            let mut got = Vec::new();
            while let Message::Stdin(bytes) = call.read().unwrap() {
                if bytes.is_empty() {
                    break;
                }
                got.extend_from_slice(bytes);
            }
            assert!(matches!(
                call.send(Message::ExitCode(0)),
                Err(CallError::NotNow)
            ));
            assert!(matches!(
                call.send(Message::Stdin(b"x")),
                Err(CallError::NotNow)
            ));
            call.send(Message::Stdout(&got)).unwrap();
            call.send(Message::Stdout(b"")).unwrap();
            call.send(Message::Stderr(b"problem")).unwrap();
            call.send(Message::Stderr(b"")).unwrap();
            call.send(Message::ExitCode(-7)).unwrap();
        });
        let mut call = Call::open(near, Side::Caller, own).unwrap();
        let input: Vec<u8> = (0..300_000u32).map(|n| (n * 7 % 251) as u8).collect();
        call.send(Message::Stdin(&input)).unwrap();
        call.send(Message::Stdin(b"")).unwrap();
        assert!(matches!(
            call.send(Message::Stdin(b"late")),
            Err(CallError::NotNow)
        ));
        let (mut output, mut errors, mut longest) = (Vec::new(), Vec::new(), 0);
        let code = loop {
            match call.read().unwrap() {
                Message::Stdout(bytes) => {
                    longest = longest.max(bytes.len());
                    output.extend_from_slice(bytes);
                }
                Message::Stderr(bytes) => errors.extend_from_slice(bytes),
                Message::ExitCode(code) => break code,
                other => panic!("{other:?}"),
            }
        };
        assert!(output == input && errors == b"problem" && code == -7);
        assert_eq!(longest, if own == Version::Two { 4096 } else { 65_536 });
        assert!(matches!(call.read(), Err(CallError::Over)));
        served.join().unwrap();
    }
}

#[test]
fn wrong_messages_are_told_at_each_call() {
    let hello = [0, 3, 0, 0, 4, 0, 0, 0, 3, 0, 0, 0];
    for (bytes, want) in [
        (
            &[0x90, 1, 0, 0, 0, 0, 0, 0][..],
            SessionFault::NotHello { kind: 0x190 },
        ),
        (
            &[0, 3, 0, 0, 4, 0, 0, 0, 1, 0, 0, 0],
            SessionFault::LowVersion { version: 1 },
        ),
        (
            &[hello.as_slice(), &[0x90, 1, 0, 0, 0, 0, 0, 0]].concat(),
            SessionFault::WrongSide {
                at: 12,
                kind: 0x190,
            },
        ),
        (
            &[
                hello.as_slice(),
                &[0x91, 1, 0, 0, 0, 0, 0, 0],
                &[0x91, 1, 0, 0, 0, 0, 0, 0],
            ]
            .concat(),
            SessionFault::AfterEnd {
                at: 20,
                kind: 0x191,
            },
        ),
        (
            &[hello.as_slice(), &[0, 4, 0, 0, 0, 0, 0, 0]].concat(),
            SessionFault::Bytes(Fault::UnknownType {
                at: 12,
                kind: 0x400,
            }),
        ),
    ] {
        let (near, mut far) = UnixStream::pair().unwrap();
        let mut call = Call::open(near, Side::Caller, Version::Three).unwrap();
        far.write_all(bytes).unwrap();
        for _ in 0..3 {
            let told = loop {
                match call.read() {
                    Ok(_) => {}
                    Err(error) => break error,
                }
            };
            assert!(
                matches!(told, CallError::Fault(fault) if fault == want),
                "{told:?}"
            );
        }
        assert!(
            matches!(call.send(Message::Stdin(b"x")), Err(CallError::Fault(fault)) if fault == want)
        );
    }
}

#[test]
fn the_other_side_closes() {
    let (near, far) = UnixStream::pair().unwrap();
    let mut call = Call::open(near, Side::Caller, Version::Three).unwrap();
    drop(far);
    assert!(
        matches!(call.read(), Err(CallError::Io(error)) if error.kind() == ErrorKind::UnexpectedEof || error.kind() == ErrorKind::ConnectionReset)
    );
}
