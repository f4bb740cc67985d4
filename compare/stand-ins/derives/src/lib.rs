//! The derive macros that the original names, as far as it needs them to compile.
use proc_macro::{TokenStream, TokenTree};

/// Every type is serializable to the stand-in, so there is nothing to write.
#[proc_macro_derive(Serialize)]
pub fn serialize(_: TokenStream) -> TokenStream {
    TokenStream::new()
}

/// Every type is deserializable to the stand-in, so there is nothing to write.
#[proc_macro_derive(Deserialize)]
pub fn deserialize(_: TokenStream) -> TokenStream {
    TokenStream::new()
}

/// The name of an enum.
fn enum_name(item: TokenStream) -> String {
    let words: Vec<String> = item
        .into_iter()
        .filter_map(|tree| match tree {
            TokenTree::Ident(word) => Some(word.to_string()),
            _ => None,
        })
        .collect();
    let at = words.iter().position(|word| word == "enum");
    words[at.expect("an enum") + 1].clone()
}

/// An error that is shown as its debug text.
#[proc_macro_derive(Error, attributes(error))]
pub fn error(item: TokenStream) -> TokenStream {
    let name = enum_name(item);
    format!(
        "impl std::fmt::Display for {name} {{
            fn fmt(&self, f: &mut std::fmt::Formatter<'_>) -> std::fmt::Result {{
                std::fmt::Debug::fmt(self, f)
            }}
        }}
        impl std::error::Error for {name} {{}}"
    )
    .parse()
    .expect("an impl")
}
