//! A stand-in for tracing: its attribute leaves a function as it is.
use proc_macro::TokenStream;

#[proc_macro_attribute]
pub fn instrument(_arguments: TokenStream, item: TokenStream) -> TokenStream {
    item
}
