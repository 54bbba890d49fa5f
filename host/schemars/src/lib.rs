//! STAND-IN, not the crate of this name: Debian packages no `schemars`.
//! The derive emits nothing, so that `#[derive(JsonSchema)]` compiles. JSON schemas
//! are no part of what is compared.

use proc_macro::TokenStream;

/// Accepts the derive and its attribute, and emits no code.
#[proc_macro_derive(JsonSchema, attributes(schemars))]
pub fn json_schema(_item: TokenStream) -> TokenStream {
    TokenStream::new()
}
