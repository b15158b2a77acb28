//! The derive macros that the Rust sources name: serde's two do nothing, `Enum` numbers the
//! variants of an enum without fields.

use proc_macro::{Delimiter, TokenStream, TokenTree};

#[proc_macro_derive(Serialize, attributes(serde))]
pub fn serialize(_: TokenStream) -> TokenStream {
    TokenStream::new()
}

#[proc_macro_derive(Deserialize, attributes(serde))]
pub fn deserialize(_: TokenStream) -> TokenStream {
    TokenStream::new()
}

#[proc_macro_derive(Enum)]
pub fn enumerate(item: TokenStream) -> TokenStream {
    let mut trees = item.into_iter();
    trees.find(|t| matches!(t, TokenTree::Ident(i) if i.to_string() == "enum"));
    let name = trees.next().expect("an enum's name").to_string();
    let body = trees
        .find_map(|t| match t {
            TokenTree::Group(g) if g.delimiter() == Delimiter::Brace => Some(g.stream()),
            _ => None,
        })
        .expect("an enum's variants");
    // attributes are a `#` and a group, so the identifiers left are the variants
    let variants: Vec<String> = body
        .into_iter()
        .filter_map(|t| match t {
            TokenTree::Ident(i) => Some(i.to_string()),
            _ => None,
        })
        .collect();
    let arms: String =
        variants.iter().enumerate().map(|(k, v)| format!("{k} => {name}::{v},")).collect();
    format!(
        "impl ::enum_map::Enum for {name} {{
            const LENGTH: usize = {};
            fn from_usize(k: usize) -> Self {{ match k {{ {arms} _ => panic!(\"no variant {{k}}\") }} }}
            fn into_usize(self) -> usize {{ self as usize }}
        }}",
        variants.len()
    )
    .parse()
    .unwrap()
}
