//! Stands in for serde's derive macros. `Serialize` adds nothing; `Deserialize` adds `serde::RoundTrip`, field by field,
//! for the three forms of types in the Rust: named fields, unnamed fields, variants without fields.

use proc_macro::{Delimiter, Group, TokenStream, TokenTree};

#[proc_macro_derive(Serialize, attributes(serde))]
pub fn serialize(_item: TokenStream) -> TokenStream {
    TokenStream::new()
}

#[proc_macro_derive(Deserialize, attributes(serde))]
pub fn deserialize(item: TokenStream) -> TokenStream {
    let mut words = Vec::new();
    let mut body = None;
    for token in item {
        match token {
            TokenTree::Ident(word) => words.push(word.to_string()),
            TokenTree::Group(group) if group.delimiter() != Delimiter::Bracket => body = Some(group),
            _ => {}
        }
    }
    let name = words.last().expect("a type has a name");
    let copy = match body {
        Some(body) if words.iter().any(|word| word == "enum") => copy_of_variant(&body),
        Some(body) if body.delimiter() == Delimiter::Brace => copy_of_named_fields(&body),
        Some(body) => copy_of_unnamed_fields(&body),
        None => "Self".to_string(),
    };
    let code = format!("impl ::serde::RoundTrip for {name} {{ fn round_trip(&self) -> Self {{ {copy} }} }}");
    code.parse().expect("the implementation is Rust")
}

fn copy_of_variant(body: &Group) -> String {
    let arms: String = members(body).iter().map(|name| format!("Self::{name} => Self::{name},")).collect();
    format!("match self {{ {arms} }}")
}

fn copy_of_named_fields(body: &Group) -> String {
    let fields: String = members(body).iter().map(|name| format!("{name}: self.{name}.round_trip(),")).collect();
    format!("use ::serde::RoundTrip; Self {{ {fields} }}")
}

fn copy_of_unnamed_fields(body: &Group) -> String {
    let fields: String = (0..members(body).len()).map(|place| format!("self.{place}.round_trip(),")).collect();
    format!("use ::serde::RoundTrip; Self({fields})")
}

/// The first word of each field or variant, visibility aside. A comma between angle brackets parts no fields.
fn members(body: &Group) -> Vec<String> {
    let mut names = Vec::new();
    let mut depth = 0;
    let mut before_name = true;
    for token in body.stream() {
        match token {
            TokenTree::Punct(mark) => match mark.as_char() {
                '<' => depth += 1,
                '>' => depth -= 1,
                ',' if depth == 0 => before_name = true,
                _ => {}
            },
            TokenTree::Ident(word) if before_name && word.to_string() != "pub" => {
                names.push(word.to_string());
                before_name = false;
            }
            _ => {}
        }
    }
    names
}
