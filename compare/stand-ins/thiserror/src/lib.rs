//! Stands in for the crate `thiserror`, so that the build fetches nothing.
//!
//! Serves error.rs: `#[derive(Error)]` on an enum, each variant of which has `#[error("text")]`.
//! It writes `Display` and `std::error::Error`. A variant has no field, named fields (the text
//! captures them by name) or one unnamed field (the text has it as `{0}`); nothing else is read.

use proc_macro::{Delimiter, Spacing, TokenStream, TokenTree};

#[proc_macro_derive(Error, attributes(error))]
pub fn derive_error(input: TokenStream) -> TokenStream {
    let (name, body) = enum_name_and_body(input);
    let tokens: Vec<TokenTree> = body.into_iter().collect();
    let arms: String = tokens
        .split(|token| is_punct(token, ','))
        .filter(|variant| !variant.is_empty())
        .map(display_arm)
        .collect();
    let code = format!(
        "impl ::std::fmt::Display for {name} {{
            fn fmt(&self, f: &mut ::std::fmt::Formatter<'_>) -> ::std::fmt::Result {{
                match self {{ {arms} }}
            }}
        }}
        impl ::std::error::Error for {name} {{}}"
    );
    code.parse().expect("the generated code is Rust")
}

/// The name of the enum and what stands between its braces.
fn enum_name_and_body(input: TokenStream) -> (String, TokenStream) {
    let mut tokens = input
        .into_iter()
        .skip_while(|token| !matches!(token, TokenTree::Ident(word) if word.to_string() == "enum"))
        .skip(1);
    match (tokens.next(), tokens.next()) {
        (Some(TokenTree::Ident(name)), Some(TokenTree::Group(body))) => {
            (name.to_string(), body.stream())
        }
        _ => panic!("this stand-in derives Error for a plain enum only"),
    }
}

/// The arm of `Display::fmt` for one variant: its attributes, its name and perhaps its fields.
fn display_arm(variant: &[TokenTree]) -> String {
    let mut text = None;
    let mut tokens = variant.iter();
    let name = loop {
        match tokens.next() {
            Some(TokenTree::Punct(_)) => {} // the # of an attribute
            Some(TokenTree::Group(attribute)) => text = text.or(error_text(attribute.stream())),
            Some(TokenTree::Ident(name)) => break name,
            _ => panic!("a variant without a name"),
        }
    };
    let text = text.unwrap_or_else(|| panic!("{name} has no #[error(..)]"));
    match tokens.next() {
        None => format!("Self::{name} => write!(f, {text}),"),
        Some(TokenTree::Group(fields)) if fields.delimiter() == Delimiter::Brace => {
            let names = field_names(fields.stream()).join(", ");
            format!("Self::{name} {{ {names} }} => write!(f, {text}),")
        }
        Some(_) => format!("Self::{name}(field) => write!(f, {text}, field),"),
    }
}

/// The literal of an attribute `error("text")`.
fn error_text(attribute: TokenStream) -> Option<String> {
    let mut tokens = attribute.into_iter();
    match (tokens.next()?, tokens.next()?) {
        (TokenTree::Ident(word), TokenTree::Group(text)) if word.to_string() == "error" => {
            Some(text.stream().to_string())
        }
        _ => None,
    }
}

/// The names of named fields: each identifier before a colon that is not half of a `::`.
fn field_names(fields: TokenStream) -> Vec<String> {
    let tokens: Vec<TokenTree> = fields.into_iter().collect();
    tokens
        .windows(2)
        .filter(|pair| matches!(pair[0], TokenTree::Ident(_)) && is_punct(&pair[1], ':'))
        .map(|pair| pair[0].to_string())
        .collect()
}

/// Whether the token is this character, and not the first of a longer sign.
fn is_punct(token: &TokenTree, sign: char) -> bool {
    matches!(token, TokenTree::Punct(punct)
        if punct.as_char() == sign && punct.spacing() == Spacing::Alone)
}
