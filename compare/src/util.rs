//! Parsers that nom lacks.

use nom::IResult;
use nom::bytes::complete::take;

/// Six bytes, big-endian.
pub fn be_u48(input: &[u8]) -> IResult<&[u8], u64> {
    let (input, bytes) = take(6usize)(input)?;
    let value = bytes
        .iter()
        .fold(0, |value, byte| value << 8 | *byte as u64);
    Ok((input, value))
}
