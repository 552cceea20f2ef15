//! The proved functions, linked from `libspeed.a`. Their contracts ask nothing of the caller.
//!
//! Each layer has one function here and its plain version in a module of its own; `main` lists the pairs.

extern "C" {
    // A slice is passed as a pointer and a length.
    fn speed_read(text: *const u8, length: usize) -> u64;
    #[cfg(feature = "resolve")]
    fn speed_resolve(text: *const u8, length: usize) -> u64;
}

/// Reads a text to its end and adds up all that it tells.
pub fn read(text: &[u8]) -> u64 {
    // SAFETY: the pointer and the length are those of a slice that lives until the call returns, and the function
    // writes nothing through it.
    unsafe { speed_read(text.as_ptr(), text.len()) }
}

/// Reads and resolves a text to its end and adds up all tokens and faults.
#[cfg(feature = "resolve")]
fn resolve(text: &[u8]) -> u64 {
    // SAFETY: as above.
    unsafe { speed_resolve(text.as_ptr(), text.len()) }
}

// None until `speed_resolve` is in the library. It is switched on by the feature `resolve` in Cargo.toml.
#[cfg(feature = "resolve")]
pub const RESOLVE: Option<fn(&[u8]) -> u64> = Some(resolve);
#[cfg(not(feature = "resolve"))]
pub const RESOLVE: Option<fn(&[u8]) -> u64> = None;
