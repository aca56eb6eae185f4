//! Stands in for the crate `serde_derive`, so that the build fetches nothing.
//!
//! Serves evidence.rs: the derives `Serialize` and `Deserialize` expand to nothing, and take the
//! attribute `#[serde(..)]` with them. JSON is no part of the port, so nothing is ever serialised.

use proc_macro::TokenStream;

#[proc_macro_derive(Serialize, attributes(serde))]
pub fn derive_serialize(_input: TokenStream) -> TokenStream {
    TokenStream::new()
}

#[proc_macro_derive(Deserialize, attributes(serde))]
pub fn derive_deserialize(_input: TokenStream) -> TokenStream {
    TokenStream::new()
}
