//! Document 01, "UTF-8 (RFC 3629)". The standard library is the judge of what is good.

use super::refusal::{Refusal, code_points, room};

/// Reading: 10, then 7.
pub fn read(bytes: &[u8], lent: usize) -> Result<Vec<u32>, Refusal> {
    let text = std::str::from_utf8(bytes).map_err(|error| Refusal::Utf8 {
        offset: error.valid_up_to(),
    })?;
    let points: Vec<u32> = text.chars().map(u32::from).collect();
    room(points.len(), 1, lent)?;
    Ok(points)
}

/// Writing: 4, then 7.
pub fn write(points: &[u32], lent: usize) -> Result<Vec<u8>, Refusal> {
    code_points(points)?;
    let text: String = points
        .iter()
        .filter_map(|&point| char::from_u32(point))
        .collect();
    room(text.len(), 1, lent)?;
    Ok(text.into_bytes())
}
