//! Stand-in for the crate `paste`: `[<a b>]` becomes the one name `ab`, everything else stays.

use proc_macro::{Delimiter, Group, Ident, Span, TokenStream, TokenTree};

#[proc_macro]
pub fn paste(input: TokenStream) -> TokenStream {
    input.into_iter().map(pasted).collect()
}

fn pasted(token: TokenTree) -> TokenTree {
    let TokenTree::Group(group) = token else {
        return token;
    };
    if let Some(name) = joined(&group) {
        return TokenTree::Ident(Ident::new(&name, group.span_open().resolved_at(Span::call_site())));
    }
    let mut inner = Group::new(group.delimiter(), paste(group.stream()));
    inner.set_span(group.span());
    TokenTree::Group(inner)
}

/// The name that `[<..>]` stands for; nothing for any other group.
fn joined(group: &Group) -> Option<String> {
    let tokens: Vec<String> = group.stream().into_iter().map(|token| token.to_string()).collect();
    let [open, parts @ .., close] = tokens.as_slice() else {
        return None;
    };
    let is_paste = group.delimiter() == Delimiter::Bracket && open == "<" && close == ">";
    is_paste.then(|| parts.concat())
}
