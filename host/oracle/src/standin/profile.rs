//! STAND-IN for profile.rs, which was not supplied. It only lets turbo.rs compile and
//! is never compared.

#[derive(Debug, Clone, PartialEq)]
pub struct CodecProfileV1;

#[derive(Debug, Clone, Copy, PartialEq, Eq)]
pub enum ValidationState {
    Validated,
}

#[derive(Debug, Clone, PartialEq)]
pub struct CompressionReceiptV1;

impl CodecProfileV1 {
    pub fn turbo(
        _dim: usize,
        _bits: u8,
        _projections: usize,
        _seed: u64,
        _residual: bool,
        _rotation: &str,
    ) -> Self {
        Self
    }
}

impl CompressionReceiptV1 {
    pub fn new(
        _profile: CodecProfileV1,
        _source_digest: Option<String>,
        _dim: usize,
        _encoded_bytes: usize,
        _state: ValidationState,
    ) -> Self {
        Self
    }
}
