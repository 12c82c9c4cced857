//! What the fuzz targets share: `input` takes values from libFuzzer's bytes,
//! `file` makes names and bodies of them, `response` whole responses, `calls`
//! lists of calls, and `pair` gives calls to the library and to the machine.

pub mod calls;
pub mod file;
pub mod input;
pub mod pair;
pub mod response;

/// Makes a function over bytes the entry of libFuzzer. A panic ends the run
/// and leaves the input in a file.
#[macro_export]
macro_rules! fuzz_target {
    ($target:path) => {
        #[export_name = "LLVMFuzzerTestOneInput"]
        extern "C" fn one_input(bytes: *const u8, length: usize) -> i32 {
            let bytes = match length {
                0 => &[],
                // SAFETY: libFuzzer lends so many bytes for the call.
                _ => unsafe { std::slice::from_raw_parts(bytes, length) },
            };
            $target(bytes);
            0
        }
    };
}
