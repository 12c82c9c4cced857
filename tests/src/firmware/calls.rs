//! The C functions of `libjagwelu.a`, and safe calls around them. A slice
//! passes as pointer, then length.

use super::{
    CeilingAnswer, Done, DueAnswer, ErrorAnswer, FileAnswer, Number, Places, Settings, Unit,
    Written,
};
use crate::reference::Fields;

#[rustfmt::skip]
extern "C" {
    fn jag_install(
        id: *const u8, id_length: usize, mac: *const u8, mac_length: usize, settings: Settings,
    ) -> Done;
    fn jag_tick(unit: Unit, second: u64, store: *const u8, store_length: usize) -> Done;
    fn jag_clock_lost(unit: Unit) -> Done;
    fn jag_take_file(
        unit: Unit, name: *const u8, name_length: usize, body: *const u8, body_length: usize,
        store: *mut u8, store_length: usize,
    ) -> Done;
    fn jag_take_response(
        unit: Unit, boundary: *const u8, boundary_length: usize,
        response: *const u8, response_length: usize, store: *mut u8, store_length: usize,
    ) -> Done;
    fn jag_update_failed(unit: Unit, status: u64) -> Done;
    fn jag_fixed_failed(unit: Unit, status: u64) -> Done;
    fn jag_due(unit: Unit) -> DueAnswer;
    fn jag_ceiling(unit: Unit, slot: u64, store: *const u8, store_length: usize) -> CeilingAnswer;
    fn jag_command(unit: Unit) -> Number;
    fn jag_free_blocks(unit: Unit) -> Number;
    fn jag_check(unit: Unit, store: *const u8, store_length: usize) -> u32;
    fn jag_request(
        unit: Unit, segment: *const u8, segment_length: usize, out: *mut u8, out_length: usize,
    ) -> Written;
    fn jag_read(
        name: *const u8, name_length: usize, body: *const u8, body_length: usize,
    ) -> FileAnswer;
    fn jag_read_for(
        plant: *const u8, plant_length: usize, name: *const u8, name_length: usize,
        body: *const u8, body_length: usize,
    ) -> FileAnswer;
    fn jag_record(format: u32, body: *const u8, body_length: usize, index: usize) -> Places;
    fn jag_copy_rates(
        format: u32, body: *const u8, body_length: usize, out: *mut u8, out_length: usize,
    ) -> Written;
    fn jag_write_body(
        format: u32, plant: *const u8, plant_length: usize,
        schedule: *const u8, schedule_length: usize, start: *const u8, start_length: usize,
        next: *const u8, next_length: usize, rates: *const u8, rates_length: usize,
        flag: u32, out: *mut u8, out_length: usize,
    ) -> Written;
    fn jag_error_file(file: *const u8, file_length: usize) -> ErrorAnswer;
}

pub fn install(id: &[u8], mac: &[u8], settings: Settings) -> Done {
    // SAFETY: here and below, each pointer comes with its own slice's length.
    unsafe { jag_install(id.as_ptr(), id.len(), mac.as_ptr(), mac.len(), settings) }
}

pub fn tick(unit: Unit, second: u64, store: &[u8]) -> Done {
    unsafe { jag_tick(unit, second, store.as_ptr(), store.len()) }
}

pub fn clock_lost(unit: Unit) -> Done {
    unsafe { jag_clock_lost(unit) }
}

pub fn take_file(unit: Unit, name: &[u8], body: &[u8], store: &mut [u8]) -> Done {
    unsafe {
        jag_take_file(
            unit,
            name.as_ptr(),
            name.len(),
            body.as_ptr(),
            body.len(),
            store.as_mut_ptr(),
            store.len(),
        )
    }
}

pub fn take_response(unit: Unit, boundary: &[u8], response: &[u8], store: &mut [u8]) -> Done {
    unsafe {
        jag_take_response(
            unit,
            boundary.as_ptr(),
            boundary.len(),
            response.as_ptr(),
            response.len(),
            store.as_mut_ptr(),
            store.len(),
        )
    }
}

pub fn update_failed(unit: Unit, status: u64) -> Done {
    unsafe { jag_update_failed(unit, status) }
}

pub fn fixed_failed(unit: Unit, status: u64) -> Done {
    unsafe { jag_fixed_failed(unit, status) }
}

pub fn due(unit: Unit) -> DueAnswer {
    unsafe { jag_due(unit) }
}

pub fn ceiling(unit: Unit, slot: u64, store: &[u8]) -> CeilingAnswer {
    unsafe { jag_ceiling(unit, slot, store.as_ptr(), store.len()) }
}

pub fn command(unit: Unit) -> Number {
    unsafe { jag_command(unit) }
}

pub fn free_blocks(unit: Unit) -> Number {
    unsafe { jag_free_blocks(unit) }
}

/// 0 where unit and store are sound.
pub fn check(unit: Unit, store: &[u8]) -> u32 {
    unsafe { jag_check(unit, store.as_ptr(), store.len()) }
}

pub fn request(unit: Unit, segment: &[u8], out: &mut [u8]) -> Written {
    unsafe {
        jag_request(
            unit,
            segment.as_ptr(),
            segment.len(),
            out.as_mut_ptr(),
            out.len(),
        )
    }
}

pub fn read(name: &[u8], body: &[u8]) -> FileAnswer {
    unsafe { jag_read(name.as_ptr(), name.len(), body.as_ptr(), body.len()) }
}

pub fn read_for(plant: &[u8], name: &[u8], body: &[u8]) -> FileAnswer {
    unsafe {
        jag_read_for(
            plant.as_ptr(),
            plant.len(),
            name.as_ptr(),
            name.len(),
            body.as_ptr(),
            body.len(),
        )
    }
}

pub fn record(format: u32, body: &[u8], index: usize) -> Places {
    unsafe { jag_record(format, body.as_ptr(), body.len(), index) }
}

pub fn copy_rates(format: u32, body: &[u8], out: &mut [u8]) -> Written {
    unsafe {
        jag_copy_rates(
            format,
            body.as_ptr(),
            body.len(),
            out.as_mut_ptr(),
            out.len(),
        )
    }
}

pub fn write_body(fields: &Fields, out: &mut [u8]) -> Written {
    unsafe {
        jag_write_body(
            fields.format,
            fields.plant.as_ptr(),
            fields.plant.len(),
            fields.schedule.as_ptr(),
            fields.schedule.len(),
            fields.start.as_ptr(),
            fields.start.len(),
            fields.next.as_ptr(),
            fields.next.len(),
            fields.rates.as_ptr(),
            fields.rates.len(),
            fields.flag,
            out.as_mut_ptr(),
            out.len(),
        )
    }
}

pub fn error_file(file: &[u8]) -> ErrorAnswer {
    unsafe { jag_error_file(file.as_ptr(), file.len()) }
}
