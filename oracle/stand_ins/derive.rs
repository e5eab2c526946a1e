//! The derives of `enum_iterator` and `num_enum`, for an enum of plain variants with a `repr`.

extern crate proc_macro;

use proc_macro::Delimiter;
use proc_macro::TokenStream;
use proc_macro::TokenTree;

struct Enum {
    name: String,
    repr: String,
    variants: Vec<String>,
}

fn read(item: TokenStream) -> Enum {
    let mut name = String::new();
    let mut repr = String::new();
    let mut variants = Vec::new();
    let mut tokens = item.into_iter().peekable();
    while let Some(token) = tokens.next() {
        match token {
            TokenTree::Group(g) if g.delimiter() == Delimiter::Bracket => {
                let text = g.to_string();
                if let Some(rest) = text.trim_start_matches('[').trim().strip_prefix("repr") {
                    repr = rest.chars().filter(|c| c.is_alphanumeric()).collect();
                }
            }
            TokenTree::Ident(i) if i.to_string() == "enum" => {
                if let Some(TokenTree::Ident(n)) = tokens.peek() {
                    name = n.to_string();
                }
            }
            TokenTree::Group(g) if g.delimiter() == Delimiter::Brace => {
                variants = read_variants(g.stream());
            }
            _ => (),
        }
    }
    assert!(
        !name.is_empty() && !variants.is_empty(),
        "not an enum of plain variants"
    );
    Enum {
        name,
        repr,
        variants,
    }
}

// A variant is the first name behind the start or a comma; attributes are `#` and a group.
fn read_variants(body: TokenStream) -> Vec<String> {
    let mut variants = Vec::new();
    let mut wanted = true;
    for token in body {
        match token {
            TokenTree::Ident(i) if wanted => {
                variants.push(i.to_string());
                wanted = false;
            }
            TokenTree::Punct(p) if p.as_char() == ',' => wanted = true,
            _ => (),
        }
    }
    variants
}

fn write(text: String) -> TokenStream {
    text.parse().expect("derived code is well formed")
}

#[proc_macro_derive(Sequence)]
pub fn sequence(item: TokenStream) -> TokenStream {
    let Enum { name, variants, .. } = read(item);
    let values: String = variants.iter().map(|v| format!("Self::{v},")).collect();
    write(format!(
        "impl ::enum_iterator::Sequence for {name} {{ const VALUES: &'static [Self] = &[{values}]; }}"
    ))
}

#[proc_macro_derive(IntoPrimitive)]
pub fn into_primitive(item: TokenStream) -> TokenStream {
    let Enum { name, repr, .. } = read(item);
    write(format!(
        "impl From<{name}> for {repr} {{ fn from(value: {name}) -> Self {{ value as {repr} }} }}"
    ))
}

#[proc_macro_derive(TryFromPrimitive)]
pub fn try_from_primitive(item: TokenStream) -> TokenStream {
    let Enum {
        name,
        repr,
        variants,
    } = read(item);
    let arms: String = variants
        .iter()
        .map(|v| format!("n if n == {name}::{v} as {repr} => Ok({name}::{v}),"))
        .collect();
    write(format!(
        "impl TryFrom<{repr}> for {name} {{ type Error = {repr};
         fn try_from(number: {repr}) -> Result<Self, {repr}> {{ match number {{ {arms} n => Err(n) }} }} }}"
    ))
}
