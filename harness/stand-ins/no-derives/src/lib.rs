//! The derives that the oracle's source asks for. They derive nothing: nothing is stored or printed.

use proc_macro::TokenStream;

#[proc_macro_derive(Serialize, attributes(serde))]
pub fn serialize(_: TokenStream) -> TokenStream {
    TokenStream::new()
}

#[proc_macro_derive(Deserialize, attributes(serde))]
pub fn deserialize(_: TokenStream) -> TokenStream {
    TokenStream::new()
}

#[proc_macro_derive(Archive, attributes(rkyv))]
pub fn archive(_: TokenStream) -> TokenStream {
    TokenStream::new()
}

#[proc_macro_derive(Error, attributes(error, source))]
pub fn error(_: TokenStream) -> TokenStream {
    TokenStream::new()
}
