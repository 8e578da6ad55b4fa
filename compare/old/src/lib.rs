//! The published Rust, built unchanged: mtc.rs, mmc.rs and universal.rs of the folder that the
//! environment variable OLD names. The build script writes the three `mod` lines.

include!(concat!(env!("OUT_DIR"), "/modules.rs"));
