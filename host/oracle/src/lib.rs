//! The nine Rust files of turbo-quant, compiled unchanged from docs/src, as the side
//! that the port is held against. `thin` is ours: it calls them and names the error.
//! profile.rs, wire.rs, lib.rs, schemars and nalgebra are stand-ins that only let this
//! compile; no answer of theirs is compared, but that nalgebra's holds a matrix column by
//! column and hands out its rows and columns. The nine are kept from rustfmt, since they
//! must stay as they were published.

#[rustfmt::skip]
#[path = "../../../docs/src/turbo-quant/src/bitpack.rs"]
pub mod bitpack;
#[rustfmt::skip]
#[path = "../../../docs/src/turbo-quant/src/codebook.rs"]
pub mod codebook;
#[rustfmt::skip]
#[path = "../../../docs/src/turbo-quant/src/error.rs"]
pub mod error;
#[rustfmt::skip]
#[path = "../../../docs/src/turbo-quant/src/packed.rs"]
pub mod packed;
#[rustfmt::skip]
#[path = "../../../docs/src/turbo-quant/src/polar.rs"]
pub mod polar;
#[rustfmt::skip]
#[path = "../../../docs/src/turbo-quant/src/qjl.rs"]
pub mod qjl;
#[rustfmt::skip]
#[path = "../../../docs/src/turbo-quant/src/radius.rs"]
pub mod radius;
#[rustfmt::skip]
#[path = "../../../docs/src/turbo-quant/src/rotation.rs"]
pub mod rotation;
#[rustfmt::skip]
#[path = "../../../docs/src/turbo-quant/src/turbo.rs"]
pub mod turbo;

#[path = "standin/profile.rs"]
pub mod profile;
#[path = "standin/wire.rs"]
pub mod wire;

pub mod thin;
