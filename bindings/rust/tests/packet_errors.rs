//! What the crate reports about packets that are no messages, and about some that are.

use serf_agent::{packet_error, PacketError};

#[test]
fn packets_with_an_error() {
    let faulty: [(&[u8], PacketError, &str); 12] = [
        (b"", PacketError::Empty, "the packet is empty"),
        (b"\x63\x80", PacketError::UnknownType(99), "no message has the type 99"),
        (b"\x03", PacketError::Truncated(1), "the packet ends inside the value at 1"),
        (b"\x03\xc1", PacketError::Unsupported(0xc1, 1), "the byte 0xc1 at 1 doesn't begin a supported value"),
        (b"\x03\x91\x91\x91\x91\x91\x91\x91\x91\x91\xc0", PacketError::TooDeep(9), "the array or map at 9 is inside eight others"),
        (b"\x03\x80\x00", PacketError::Trailing(2), "the value ends before 2, and more bytes follow"),
        (b"\x03\x07", PacketError::NotAMap, "the value is not a map"),
        (b"\x03\x81\x01\x01", PacketError::BadKey(2), "the key at 2 is not raw"),
        (b"\x03\x82\xa5LTime\x01\xa5LTime\x01", PacketError::Twice(9), "the key at 9 appears for the second time"),
        (b"\x03\x81\xa5LTime\xa1x", PacketError::WrongKind(8), "the value at 8 has the wrong type"),
        (b"\x05\x81\xa2ID\xcf\0\0\0\x01\0\0\0\0", PacketError::OutOfRange(5), "the integer at 5 is out of range"),
        (b"\x03\x81\xa5LTime\xcf\xff\xff\xff\xff\xff\xff\xff\xff", PacketError::MaxTime(8), "the number at 8 is not a valid time"),
    ];
    for (packet, error, words) in faulty {
        assert_eq!(packet_error(packet), Some(error), "{packet:02x?}");
        assert_eq!(error.to_string(), words);
    }
}

#[test]
fn messages() {
    let sound: [&[u8]; 5] = [b"\x03\x80", b"\x02\x81\xa5LTime\x07", b"\x03\xde\0\x01\xd9\x05LTime\xd0\x07", b"\x00", b"\x09\xc1"];
    for packet in sound {
        assert_eq!(packet_error(packet), None, "{packet:02x?}");
    }
}
