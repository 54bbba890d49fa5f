//! STAND-IN for wire.rs, which was not supplied. It only lets turbo.rs compile and is
//! never compared: both calls refuse.

use crate::{
    error::{Result, TurboQuantError},
    turbo::{TurboCode, TurboQuantizer},
};

pub struct TurboCodeWireV1;

impl TurboCodeWireV1 {
    pub fn encode(_code: &TurboCode, _quantizer: &TurboQuantizer) -> Result<Vec<u8>> {
        Err(absent())
    }

    pub fn decode(_bytes: &[u8], _quantizer: &TurboQuantizer) -> Result<TurboCode> {
        Err(absent())
    }
}

fn absent() -> TurboQuantError {
    TurboQuantError::ProfileMismatch { reason: "wire.rs was not supplied".into() }
}
