//! The plant: its ID, its MAC address and its settings.

use crate::firmware::Settings;

const WEIGHTS: [u8; 25] = [
    1, 3, 5, 7, 9, 1, 3, 5, 7, 9, 1, 3, 5, 7, 9, 1, 3, 5, 7, 9, 1, 3, 5, 7, 9,
];
/// The greatest capacity in W.
const CAPACITY_MAX: u32 = 2_000_000;
/// Parts of one percent for each minute of the ramp.
const PARTS_OF_PERCENT: u32 = 60;

/// The values that a unit was installed with.
#[derive(Clone, Copy, Debug, PartialEq, Eq)]
pub struct Plant {
    pub id: [u8; 26],
    pub mac: [u8; 12],
    /// In W, as the next.
    pub panel: u32,
    pub inverter: u32,
    /// N, of a ramp over 100%.
    pub minutes: u32,
}

/// 26 digits whose last is the check digit of the others.
#[inline]
fn is_plant_id(id: &[u8; 26]) -> bool {
    if id.iter().fold(0, |most, digit| most.max(*digit)) > 9 {
        return false;
    }
    let products = id.iter().zip(&WEIGHTS);
    let sum: u16 = products
        .map(|(digit, weight)| u16::from(digit * weight))
        .sum();
    sum % 10 == u16::from(id[25])
}

/// 12 ASCII bytes 0-9 or A-F.
#[inline]
fn is_mac(mac: &[u8; 12]) -> bool {
    let good = |byte: &u8| byte.is_ascii_digit() | (b'A'..=b'F').contains(byte);
    mac.iter().fold(true, |all, byte| all & good(byte))
}

impl Plant {
    /// The plant of these values. Nothing where it has no room for a setting.
    pub fn of(id: [u8; 26], mac: [u8; 12], settings: Settings) -> Option<Plant> {
        Some(Plant {
            id,
            mac,
            panel: settings.panel.try_into().ok()?,
            inverter: settings.inverter.try_into().ok()?,
            minutes: settings.minutes.try_into().ok()?,
        })
    }

    /// The plant of these values, or cause 1 or 2.
    pub fn install(id: &[u8], mac: &[u8], settings: Settings) -> Result<Plant, u8> {
        let id = id.try_into().map_err(|_| 1)?;
        if !is_plant_id(&id) {
            return Err(1);
        }
        let mac = mac.try_into().map_err(|_| 2)?;
        let plant = Plant::of(id, mac, settings).ok_or(2)?;
        if plant.is_set_well() {
            Ok(plant)
        } else {
            Err(2)
        }
    }

    #[inline]
    fn is_set_well(&self) -> bool {
        let capacity = 1..=CAPACITY_MAX;
        capacity.contains(&self.panel)
            && capacity.contains(&self.inverter)
            && (5..=10).contains(&self.minutes)
            && is_mac(&self.mac)
    }

    #[inline]
    pub fn is_valid(&self) -> bool {
        is_plant_id(&self.id) && self.is_set_well()
    }

    pub fn check_digit(&self) -> u8 {
        self.id[25]
    }

    /// p of a rate r: floor(r × C ÷ P), with C the lesser capacity.
    #[inline]
    pub fn percent(&self, rate: u8) -> u32 {
        u32::from(rate) * self.panel.min(self.inverter) / self.inverter
    }

    /// The parts that the command goes to at a rate.
    #[inline]
    pub fn goal(&self, rate: u8) -> u32 {
        PARTS_OF_PERCENT * self.minutes * self.percent(rate)
    }
}
