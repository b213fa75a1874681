//! The filters of a query, which select the nodes that handle it.

use crate::error::{check_code, Code, Error};
use crate::raw;

/// The first byte of a tag filter. The agent doesn't know its node's tags (see [`crate::Agent::receive`]).
pub const TAG_FILTER: u8 = 1;

/// The first byte of a filter by node names.
const NODE_FILTER: u8 = 0;

/// Appends a text in MessagePack's old form (raw 5, 16 or 32), which Serf writes.
fn write_raw(filter: &mut Vec<u8>, text: &[u8]) {
    match text.len() {
        short @ 0..=31 => filter.push(0xa0 | short as u8),
        long @ 32..=0xffff => {
            filter.push(0xda);
            filter.extend_from_slice(&(long as u16).to_be_bytes());
        }
        longer => {
            filter.push(0xdb);
            filter.extend_from_slice(&(longer as u32).to_be_bytes());
        }
    }
    filter.extend_from_slice(text);
}

/// Returns a filter for [`crate::Agent::query`] that the nodes with these names pass. There must be fewer than 2^32 names, each with
/// fewer than 2^32 bytes.
pub fn node_filter<T: AsRef<[u8]>>(names: &[T]) -> Vec<u8> {
    let mut filter = vec![NODE_FILTER];
    match names.len() {
        few @ 0..=15 => filter.push(0x90 | few as u8),
        many @ 16..=0xffff => {
            filter.push(0xdc);
            filter.extend_from_slice(&(many as u16).to_be_bytes());
        }
        more => {
            filter.push(0xdd);
            filter.extend_from_slice(&(more as u32).to_be_bytes());
        }
    }
    names.iter().for_each(|name| write_raw(&mut filter, name.as_ref()));
    filter
}

/// Returns a filter for [`crate::Agent::query`] that a node passes if the expression matches a part of its tag. Serf reads the
/// expression with Go's package `regexp`.
pub fn tag_filter(tag: &[u8], expression: &[u8]) -> Vec<u8> {
    let mut filter = vec![TAG_FILTER, 0x82];
    for text in [b"Expr", expression, b"Tag", tag] {
        write_raw(&mut filter, text);
    }
    filter
}

/// Returns the filters of a query's packet, in order, or `None` if the packet is no query. No agent is needed.
pub fn query_filters(packet: &[u8]) -> Result<Option<Vec<Vec<u8>>>, Error> {
    let (mut sizes, mut lens, mut filters) = (raw::Filters::default(), Vec::new(), Vec::new());
    // The first call returns the sizes, the second the filters.
    for _ in 0..2 {
        lens = vec![0; sizes.filters];
        filters = vec![0; sizes.filters_len];
        // SAFETY: each pointer comes with its length, and `sizes` is of the type that the library writes.
        let code = unsafe {
            raw::serf_agent_query_filters(
                packet.as_ptr(),
                packet.len(),
                &mut sizes,
                lens.as_mut_ptr(),
                lens.len(),
                filters.as_mut_ptr(),
                filters.len(),
            )
        };
        match check_code(code) {
            Err(Error::Refused(Code::Nothing)) => return Ok(None),
            other => other?,
        }
    }
    let mut rest = filters.as_slice();
    let split_filters = lens.iter().map(|&len: &usize| {
        let (filter, after) = rest.split_at(len);
        rest = after;
        filter.to_vec()
    });
    Ok(Some(split_filters.collect()))
}
