//! Stand-in for the derive macro of `dsntk-common`, which is not among the published files.
//! `#[derive(ToErrorMessage)]` on `struct X(String);` gives the error's message, and with it
//! the conversion into `DsntkError`.

use proc_macro::{TokenStream, TokenTree};

#[proc_macro_derive(ToErrorMessage)]
pub fn to_error_message(item: TokenStream) -> TokenStream {
    let mut tokens = item.into_iter();
    let is_struct = tokens
        .by_ref()
        .any(|token| matches!(&token, TokenTree::Ident(word) if word.to_string() == "struct"));
    let code = match tokens.next() {
        Some(TokenTree::Ident(name)) if is_struct => format!(
            "impl ::dsntk_common::ToErrorMessage for {name} {{ fn message(self) -> String {{ self.0 }} }}"
        ),
        _ => r#"compile_error!("ToErrorMessage is derived for `struct X(String);` only");"#
            .to_string(),
    };
    code.parse().expect("the code above is Rust")
}
