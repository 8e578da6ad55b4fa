//! The compared calls of one side, with plain bytes in and out.

pub mod body;
pub mod code;
pub mod generator;
pub mod label;
pub mod message;
pub mod quarter;
pub mod reader;
pub mod write;

use super::lib;
use super::{quarter_frame, received, refusal};

use crate::plain::Written;
use lib::universal::SysexError;

/// A writer's answer in plain numbers.
fn written(answer: Result<usize, SysexError>) -> Written {
    match answer {
        Ok(length) => Written { refusal: 0, length },
        Err(error) => {
            let (refusal, length) = refusal(error);
            Written { refusal, length }
        }
    }
}
