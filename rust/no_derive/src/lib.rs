//! Stand-ins for the derive macros that the twenty-first source names. Each emits nothing: what
//! they would write (serialisation, fuzzing, error texts) takes no part in the comparison.

use proc_macro::TokenStream;

#[proc_macro_derive(Serialize)]
pub fn serialize(_: TokenStream) -> TokenStream {
    TokenStream::new()
}

#[proc_macro_derive(Deserialize)]
pub fn deserialize(_: TokenStream) -> TokenStream {
    TokenStream::new()
}

#[proc_macro_derive(Arbitrary)]
pub fn arbitrary(_: TokenStream) -> TokenStream {
    TokenStream::new()
}

#[proc_macro_derive(GetSize)]
pub fn get_size(_: TokenStream) -> TokenStream {
    TokenStream::new()
}

#[proc_macro_derive(BFieldCodec)]
pub fn bfield_codec(_: TokenStream) -> TokenStream {
    TokenStream::new()
}

#[proc_macro_derive(Error, attributes(error, source, from))]
pub fn error(_: TokenStream) -> TokenStream {
    TokenStream::new()
}
