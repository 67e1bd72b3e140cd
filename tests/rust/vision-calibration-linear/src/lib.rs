//! This is not vision-calibration-linear. It stands around that crate's extrinsics.rs, which the scripts copy in unchanged beside this file, over a nalgebra that is not nalgebra but written from document 01's reading.

pub mod extrinsics;

/// The two cases of that crate's error.rs that extrinsics.rs makes, with the same fields.
#[derive(Debug)]
pub enum Error {
    InvalidInput { reason: String },
    InsufficientData { need: usize, got: usize },
}

impl Error {
    pub(crate) fn invalid_input(reason: impl Into<String>) -> Self {
        Self::InvalidInput { reason: reason.into() }
    }
}
