//! The packets of user events.

pub struct EventView<'a> {
    pub time: u64,
    pub name: &'a [u8],
    pub payload: &'a [u8],
    pub coalesce: bool,
}

pub fn read_raw(bytes: &[u8]) -> Option<(&[u8], &[u8])> {
    let (head, rest) = bytes.split_first()?;
    let (len, rest) = match *head {
        0xa0..=0xbf => ((head & 31) as usize, rest),
        0xc0 => (0, rest),
        0xc4 | 0xd9 => (*rest.first()? as usize, &rest[1..]),
        0xc5 | 0xda => (
            u16::from_be_bytes(rest.get(..2)?.try_into().ok()?) as usize,
            &rest[2..],
        ),
        _ => return None,
    };
    (len <= rest.len()).then(|| rest.split_at(len))
}

pub fn read_number(bytes: &[u8]) -> Option<(u64, &[u8])> {
    let (head, rest) = bytes.split_first()?;
    Some(match *head {
        0..=0x7f => (*head as u64, rest),
        0xcc => (*rest.first()? as u64, &rest[1..]),
        0xcd => (
            u16::from_be_bytes(rest.get(..2)?.try_into().ok()?) as u64,
            &rest[2..],
        ),
        0xce => (
            u32::from_be_bytes(rest.get(..4)?.try_into().ok()?) as u64,
            &rest[4..],
        ),
        0xcf => (
            u64::from_be_bytes(rest.get(..8)?.try_into().ok()?),
            &rest[8..],
        ),
        _ => return None,
    })
}

pub fn read_flag(bytes: &[u8]) -> Option<(bool, &[u8])> {
    match bytes.split_first()? {
        (0xc0 | 0xc2, rest) => Some((false, rest)),
        (0xc3, rest) => Some((true, rest)),
        _ => None,
    }
}

/// The event that a packet spells, each key once and in any order.
pub fn read_event(packet: &[u8]) -> Option<EventView<'_>> {
    let [3, head @ 0x80..=0x8f, pairs @ ..] = packet else {
        return None;
    };
    let (mut time, mut name, mut payload, mut coalesce) = (None, None, None, None);
    let mut rest = pairs;
    for _ in 0..head & 15 {
        let (key, value) = read_raw(rest)?;
        rest = match key {
            b"LTime" if time.is_none() => {
                read_number(value).map(|(t, rest)| (time = Some(t), rest).1)?
            }
            b"Name" if name.is_none() => {
                read_raw(value).map(|(n, rest)| (name = Some(n), rest).1)?
            }
            b"Payload" if payload.is_none() => {
                read_raw(value).map(|(p, rest)| (payload = Some(p), rest).1)?
            }
            b"CC" if coalesce.is_none() => {
                read_flag(value).map(|(c, rest)| (coalesce = Some(c), rest).1)?
            }
            _ => return None,
        };
    }
    let time = time.unwrap_or(0);
    (rest.is_empty() && time < u64::MAX).then(|| EventView {
        time,
        name: name.unwrap_or(&[]),
        payload: payload.unwrap_or(&[]),
        coalesce: coalesce.unwrap_or(false),
    })
}

pub fn put_time(out: &mut Vec<u8>, time: u64) {
    match time {
        0..=0x7f => out.push(time as u8),
        0x80..=0xff => out.extend_from_slice(&[0xcc, time as u8]),
        0x100..=0xffff => {
            out.push(0xcd);
            out.extend_from_slice(&(time as u16).to_be_bytes());
        }
        0x1_0000..=0xffff_ffff => {
            out.push(0xce);
            out.extend_from_slice(&(time as u32).to_be_bytes());
        }
        _ => {
            out.push(0xcf);
            out.extend_from_slice(&time.to_be_bytes());
        }
    }
}

pub fn put_raw(out: &mut Vec<u8>, bytes: &[u8]) {
    if bytes.len() < 32 {
        out.push(0xa0 | bytes.len() as u8);
    } else {
        out.push(0xda);
        out.extend_from_slice(&(bytes.len() as u16).to_be_bytes());
    }
    out.extend_from_slice(bytes);
}
