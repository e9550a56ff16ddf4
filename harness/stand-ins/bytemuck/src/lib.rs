//! Stand-in: the two derives that word.rs names, deriving nothing. No answer that is compared reinterprets a word's bytes.

use proc_macro::TokenStream;

#[proc_macro_derive(Pod)]
pub fn derive_pod(_item: TokenStream) -> TokenStream {
    TokenStream::new()
}

#[proc_macro_derive(Zeroable)]
pub fn derive_zeroable(_item: TokenStream) -> TokenStream {
    TokenStream::new()
}
