//! The proved calls beside two implementations in safe Rust: `reference`, which is plain, and `fast`, which is written for speed.

pub mod calls;
pub mod fast;
// The same code a second time, which lies elsewhere in memory: what the two differ by is noise.
#[path = "fast/mod.rs"]
mod fast_again;
pub mod programs;
pub mod streams;
pub mod timing;

/// The proved calls, by their Rust wrapper.
pub use outside::make as proved;
pub use outside::Make;
/// The calls written plainly, from the papers alone.
pub use reference::call_on_store as plain;

use reference::{Answer, Frame};

/// What has to be reached, and whether it is.
pub type Target = (String, bool);

/// The calls written for speed.
pub fn fast(store: &mut [u8], frame: &Frame) -> Answer {
    fast::call(store, frame.call, frame.stream, frame.args)
}

/// The same, compiled a second time.
pub fn fast_again(store: &mut [u8], frame: &Frame) -> Answer {
    fast_again::call(store, frame.call, frame.stream, frame.args)
}
