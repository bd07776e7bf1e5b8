//! Stand-in for `thiserror`: `Display` prints what `Debug` prints, and a
//! `#[from]` field gets its `From`. Types with generics are not handled.

use proc_macro::{Delimiter, TokenStream, TokenTree};

#[proc_macro_derive(Error, attributes(error, from, source))]
pub fn derive_error(input: TokenStream) -> TokenStream {
    let (name, body) = name_and_body(input);
    let mut code = format!(
        "impl ::core::fmt::Display for {name} {{
            fn fmt(&self, f: &mut ::core::fmt::Formatter<'_>) -> ::core::fmt::Result {{
                ::core::fmt::Debug::fmt(self, f)
            }}
        }}
        impl ::core::error::Error for {name} {{}}"
    );
    for (variant, source) in from_variants(body) {
        code += &format!(
            "impl ::core::convert::From<{source}> for {name} {{
                fn from(source: {source}) -> Self {{ Self::{variant}(source) }}
            }}"
        );
    }
    code.parse().unwrap()
}

/// The type's name, and the braces after it.
fn name_and_body(input: TokenStream) -> (String, TokenStream) {
    let mut tokens = input.into_iter();
    for token in tokens.by_ref() {
        if matches!(token.to_string().as_str(), "struct" | "enum") {
            break;
        }
    }
    let name = tokens.next().unwrap().to_string();
    let body = match tokens.next() {
        Some(TokenTree::Group(group)) => group.stream(),
        _ => TokenStream::new(),
    };
    (name, body)
}

/// The tuple variants whose only field is marked `#[from]`, with that field's type.
fn from_variants(body: TokenStream) -> Vec<(String, String)> {
    let mut found = Vec::new();
    let mut last_name = String::new();
    for token in body {
        match token {
            TokenTree::Ident(ident) => last_name = ident.to_string(),
            TokenTree::Group(group) if group.delimiter() == Delimiter::Parenthesis => {
                if let Some(source) = from_field(group.stream()) {
                    found.push((last_name.clone(), source));
                }
            }
            _ => {}
        }
    }
    found
}

fn from_field(fields: TokenStream) -> Option<String> {
    let mut tokens = fields.into_iter();
    let marked = tokens.next()?.to_string() == "#" && tokens.next()?.to_string() == "[from]";
    marked.then(|| tokens.collect::<TokenStream>().to_string())
}
