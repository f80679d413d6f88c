use qrexec_messages::{Channel, Fault, Message, Messages, Reader};

const CONTROL: [Message; 8] = [
    Message::Hello { version: 3 },
    Message::Exec {
        domain: 7,
        port: 513,
        line: b"user:cat",
    },
    Message::JustExec {
        domain: u32::MAX,
        port: 0,
        line: b"",
    },
    Message::Connect {
        domain: 7,
        port: 513,
        ident: b"SOCKET11",
    },
    Message::Refused {
        ident: b"0123456789012345678901234567890",
    },
    Message::Terminated { domain: 1, port: 2 },
    Message::Trigger3 {
        target: b"work-vm",
        ident: b"SOCKET11",
        service: b"qubes.Filecopy+a",
    },
    Message::Trigger {
        target: b"@default",
        ident: b"",
        service: b"qubes.VMShell",
    },
];

const DATA: [Message; 5] = [
    Message::Hello { version: 2 },
    Message::Stdin(b"in"),
    Message::Stdout(&[0xff; 65_536]),
    Message::Stderr(b""),
    Message::ExitCode(-5),
];

fn written(messages: &[Message]) -> Vec<u8> {
    let mut stream = Vec::new();
    for message in messages {
        let mut out = vec![0xa5; 70_000];
        let len = message.write(&mut out).expect("it fits");
        assert!(out[len..].iter().all(|byte| *byte == 0xa5));
        assert_eq!(message.write(&mut out[..len - 1]), None);
        stream.extend_from_slice(&out[..len]);
    }
    stream
}

#[test]
fn what_is_written_is_read() {
    for (channel, messages) in [(Channel::Control, &CONTROL[..]), (Channel::Data, &DATA[..])] {
        let stream = written(messages);
        let read: Vec<_> = Messages::new(channel, &stream)
            .map(|it| it.expect("no fault"))
            .collect();
        assert_eq!(read, messages);
    }
}

#[test]
fn a_stream_may_come_in_pieces() {
    let stream = written(&CONTROL);
    let (mut reader, mut at, mut read) = (Reader::new(Channel::Control), 0, Vec::new());
    for have in 0..=stream.len() {
        while let Some((message, len)) = reader.next(&stream[at..have]).expect("no fault") {
            assert_eq!(reader.at(), (at + len) as u64);
            at += len;
            read.push(message);
        }
    }
    assert_eq!(read, CONTROL);
}

#[test]
fn each_fault_is_told_and_stays() {
    let faulty =
        |kind: u32, len: u32, body: &[u8]| [&kind.to_le_bytes(), &len.to_le_bytes(), body].concat();
    for (channel, bytes, fault) in [
        (
            Channel::Data,
            faulty(0x200, 9, &[]),
            Fault::UnknownType {
                at: 12,
                kind: 0x200,
            },
        ),
        (
            Channel::Data,
            faulty(0x190, 65_537, &[]),
            Fault::TooLong {
                at: 12,
                kind: 0x190,
                len: 65_537,
            },
        ),
        (
            Channel::Control,
            faulty(0x202, 41, &[]),
            Fault::BadLength {
                at: 12,
                kind: 0x202,
                len: 41,
            },
        ),
        (
            Channel::Control,
            faulty(0x201, 9, &[1; 9]),
            Fault::NoNul {
                at: 12,
                kind: 0x201,
            },
        ),
    ] {
        let stream = [written(&[Message::Hello { version: 3 }]), bytes].concat();
        let mut messages = Messages::new(channel, &stream);
        assert_eq!(messages.next(), Some(Ok(Message::Hello { version: 3 })));
        assert_eq!(messages.next(), Some(Err(fault)));
        assert_eq!(
            (messages.next(), messages.rest().len()),
            (None, stream.len() - 12)
        );

        let mut reader = Reader::new(channel);
        assert!(reader.next(&stream).expect("a greeting").is_some());
        assert_eq!(reader.next(&stream[12..]), Err(fault));
        assert_eq!(reader.next(&stream[..12]), Err(fault));
    }
}

#[test]
fn what_does_not_fit_is_not_written() {
    let mut out = [0; 100_000];
    for message in [
        Message::Refused { ident: &[b'a'; 32] },
        Message::Refused { ident: b"a\0" },
        Message::Trigger {
            target: &[b'a'; 32],
            ident: b"",
            service: b"",
        },
        Message::Trigger3 {
            target: &[b'a'; 64],
            ident: b"",
            service: b"",
        },
        Message::Exec {
            domain: 0,
            port: 0,
            line: &[b'a'; 65_528],
        },
        Message::Stdin(&[0; 65_537]),
    ] {
        assert_eq!(message.write(&mut out), None);
    }
    assert!(out.iter().all(|byte| *byte == 0));
}
