// The original, as the build script copied it. Its own first attribute stands
// here, since an included file can't carry it.
#![cfg_attr(not(test), no_std)]

include!(concat!(env!("OUT_DIR"), "/lib.rs"));

/// Each line that the copy has otherwise than the original, and why.
pub const CHANGES: &str = include_str!(concat!(env!("OUT_DIR"), "/changes.txt"));
