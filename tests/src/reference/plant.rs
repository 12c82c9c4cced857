//! The plant: its ID, its MAC address, its settings, and percent of the
//! inverter's capacity.

use super::calendar::are_digits;
use crate::firmware::Settings;

/// Weights of an ID's digits, repeating (002, 3.2 (1)).
const WEIGHTS: [u32; 5] = [1, 3, 5, 7, 9];

/// The greatest capacity in W.
const CAPACITY_MAX: u64 = 2_000_000;

/// The weighted sum of an ID's first 25 digits.
pub fn weighted_sum(digits: &[u8]) -> u32 {
    digits[..25]
        .iter()
        .zip(WEIGHTS.iter().cycle())
        .map(|(digit, weight)| u32::from(*digit) * weight)
        .sum()
}

/// Is it 26 digits whose last is the check digit of the others?
pub fn is_plant_id(id: &[u8]) -> bool {
    are_digits(id, 26) && weighted_sum(id) % 10 == u32::from(id[25])
}

/// Is it 12 ASCII bytes 0-9 or A-F?
pub fn is_mac(mac: &[u8]) -> bool {
    mac.len() == 12
        && mac
            .iter()
            .all(|byte| matches!(byte, b'0'..=b'9' | b'A'..=b'F'))
}

/// Installing: cause 1 by the ID, cause 2 by MAC or settings.
pub fn install(id: &[u8], mac: &[u8], settings: Settings) -> Result<(), u8> {
    if !is_plant_id(id) {
        return Err(1);
    }
    if !is_mac(mac) || !are_settings(settings) {
        return Err(2);
    }
    Ok(())
}

/// Is each in its range?
fn are_settings(settings: Settings) -> bool {
    let capacity = 1..=CAPACITY_MAX;
    capacity.contains(&settings.panel)
        && capacity.contains(&settings.inverter)
        && (5..=10).contains(&settings.minutes)
}

/// p = floor(r × C ÷ P), with C the lesser capacity and P the inverter's.
pub fn percent(settings: Settings, rate: u8) -> u32 {
    let lesser = settings.panel.min(settings.inverter);
    let percent = u64::from(rate) * lesser / settings.inverter;
    percent as u32
}
