//! The request for a file, 84 bytes (causes 1, 2, 7, 15).

use super::name::segment_of;
use super::plant::{is_mac, is_plant_id};

/// The bytes of a request.
pub const REQUEST_LENGTH: usize = 84;

/// May some name have this segment?
fn is_segment(segment: &[u8]) -> bool {
    [201, 202, 203, 301]
        .iter()
        .any(|format| segment_of(*format, segment).is_some())
}

/// The request made from ID, MAC and segment for a buffer of `room` bytes.
pub fn request(id: &[u8], mac: &[u8], segment: &[u8], room: usize) -> Result<Vec<u8>, u8> {
    if !is_plant_id(id) {
        return Err(1);
    }
    if !is_mac(mac) {
        return Err(2);
    }
    if !is_segment(segment) {
        return Err(7);
    }
    let mut bytes = b"power_plant_id=".to_vec();
    bytes.extend(id.iter().map(|digit| digit + b'0'));
    bytes.extend(b"&mac_address=");
    bytes.extend(mac);
    bytes.extend(b"&schedule_kbn=");
    bytes.extend(segment);
    if bytes.len() > room {
        return Err(15);
    }
    Ok(bytes)
}
