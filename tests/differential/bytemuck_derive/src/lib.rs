//! Derive macros that mark a plain struct as `Pod` or `Zeroable`.

use proc_macro::{TokenStream, TokenTree};

/// The name that follows the word `struct`.
fn struct_name(item: TokenStream) -> String {
    let mut after_struct = false;
    for token in item {
        if let TokenTree::Ident(word) = token {
            if after_struct {
                return word.to_string();
            }
            after_struct = word.to_string() == "struct";
        }
    }
    panic!("only a struct can be marked");
}

fn mark(item: TokenStream, marker: &str) -> TokenStream {
    let name = struct_name(item);
    format!("unsafe impl bytemuck::{marker} for {name} {{}}")
        .parse()
        .expect("the marker is an item")
}

#[proc_macro_derive(Pod)]
pub fn pod(item: TokenStream) -> TokenStream {
    mark(item, "Pod")
}

#[proc_macro_derive(Zeroable)]
pub fn zeroable(item: TokenStream) -> TokenStream {
    mark(item, "Zeroable")
}
