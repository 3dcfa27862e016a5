//! Stand-in: the derives name the trait for a struct without parameters, and check nothing.
extern crate proc_macro;

use proc_macro::{TokenStream, TokenTree};

fn named(item: TokenStream, of: &str) -> TokenStream {
    let mut words = item.into_iter().filter_map(|tree| match tree {
        TokenTree::Ident(word) => Some(word.to_string()),
        _ => None,
    });
    words.find(|word| word == "struct").expect("a struct");
    let name = words.next().expect("its name");
    format!("unsafe impl ::bytemuck::{of} for {name} {{}}").parse().unwrap()
}

#[proc_macro_derive(Pod)]
pub fn pod(item: TokenStream) -> TokenStream {
    named(item, "Pod")
}

#[proc_macro_derive(Zeroable)]
pub fn zeroable(item: TokenStream) -> TokenStream {
    named(item, "Zeroable")
}
