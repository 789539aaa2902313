//! What packets of a server say, read without a client.

mod server;

use server::{allocation, at, challenge, config, new_client, next, success};
use yarrowdoor::hints::{self, Frame, MessageClass, NoFrame};
use yarrowdoor::types::TransportType;

const UDP: TransportType = TransportType::Udp;
const TCP: TransportType = TransportType::Tcp;

/// RFC 5769, section 2.2: a Binding success over IPv4, with SOFTWARE, MESSAGE-INTEGRITY and FINGERPRINT.
const BINDING: &[u8] = b"\x01\x01\x00\x3c\x21\x12\xa4\x42\xb7\xe7\xa7\x01\xbc\x34\xd6\x86\xfa\x87\xdf\xae\
\x80\x22\x00\x0b\x74\x65\x73\x74\x20\x76\x65\x63\x74\x6f\x72\x20\x00\x20\x00\x08\x00\x01\xa1\x47\xe1\x12\xa6\x43\
\x00\x08\x00\x14\x2b\x91\xf5\x99\xfd\x9e\x90\xc3\x8c\x74\x89\xf9\x2a\xf9\xba\x53\xf0\x6b\xe7\xd7\
\x80\x28\x00\x04\xc0\x7d\x4c\x96";

fn request() -> server::Sent {
    next(&mut new_client(config()), at(0)).unwrap()
}

fn message(bytes: &[u8]) -> hints::Message<'_> {
    match hints::read(UDP, bytes) {
        Ok(Some(Frame::Message(said))) => said,
        other => panic!("{other:?}"),
    }
}

#[test]
fn the_vector_of_the_rfc_is_read() {
    let said = message(BINDING);
    assert_eq!((said.len, said.method), (80, 1));
    assert_eq!(said.class, MessageClass::Success);
    assert_eq!(said.id, BINDING[8..20]);
    assert_eq!(said.mapped, Some("192.0.2.1:32853".parse().unwrap()));
    assert_eq!((said.alternate, said.error, said.realm), (None, None, None));
    assert_eq!(hints::attribute(BINDING, 0x8022), Some(&b"test vector"[..]));
    assert_eq!(
        hints::attribute(BINDING, 0x8028),
        Some(&b"\xc0\x7d\x4c\x96"[..])
    );
    assert_eq!(hints::attribute(BINDING, 0x0006), None);
}

#[test]
fn a_challenge_has_its_code_and_its_realm() {
    let request = request();
    let bytes = challenge(&request, 438, "nonce");
    let said = message(&bytes);
    assert_eq!(
        (said.class, said.method),
        (MessageClass::Error, server::ALLOCATE)
    );
    assert_eq!(said.id, request.id);
    let error = said.error.unwrap();
    assert_eq!((error.code, error.reason), (438, &b""[..]));
    assert_eq!(said.realm, Some(&b"realm"[..]));
    assert_eq!(hints::attribute(&bytes, 0x0015), Some(&b"nonce"[..]));
    let bytes = success(&request, &allocation("10.0.0.2:50000", 600));
    assert_eq!(message(&bytes).class, MessageClass::Success);
}

#[test]
fn classes_are_told_apart() {
    for (head, class) in [
        ([0x00, 0x01], MessageClass::Request),
        ([0x00, 0x11], MessageClass::Indication),
        ([0x01, 0x01], MessageClass::Success),
        ([0x01, 0x11], MessageClass::Error),
    ] {
        let bytes = [&head[..], b"\x00\x00\x21\x12\xa4\x42............"].concat();
        assert_eq!(message(&bytes).class, class);
    }
}

#[test]
fn channel_data_has_its_padding_over_tcp() {
    let bytes = b"\x40\x01\x00\x05hello\0\0\0";
    let channel_data = |len| {
        Ok(Some(Frame::ChannelData {
            len,
            channel: 0x4001,
        }))
    };
    assert_eq!(hints::read(UDP, &bytes[..9]), channel_data(9));
    assert_eq!(hints::read(TCP, bytes), channel_data(12));
    assert_eq!(hints::read(TCP, &bytes[..9]), Ok(None));
    assert_eq!(hints::attribute(bytes, 0x0006), None);
}

#[test]
fn what_is_no_frame_is_refused() {
    assert_eq!(hints::read(UDP, b""), Err(NoFrame));
    assert_eq!(hints::read(TCP, b""), Ok(None));
    assert_eq!(hints::read(UDP, &BINDING[..79]), Err(NoFrame));
    assert_eq!(hints::read(TCP, &BINDING[..79]), Ok(None));
    assert_eq!(hints::read(UDP, b"GET / HTTP/1.1\r\n\r\n"), Err(NoFrame));
    assert_eq!(hints::attribute(b"", 0x0009), None);
}
