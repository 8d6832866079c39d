//! `#[derive(Educe)]` implements `Debug`, `Clone`, `Copy`, `PartialEq`, `Eq`, `PartialOrd`, `Ord`, `Hash` and `Default`
//! with control over fields, order, names, values and bounds.
//!
//! The attribute `educe` on the type lists the traits. On a field or a variant it says how they treat it:
//!
//! ```
//! use educe::Educe;
//! use std::rc::Rc;
//!
//! #[derive(Educe)]
//! #[educe(PartialEq)]
//! struct Handle<T> {
//!     id: u64,
//!     #[educe(PartialEq(ignore))]
//!     data: Rc<T>,
//! }
//!
//! struct Opaque;
//! assert!(Handle { id: 1, data: Rc::new(Opaque) } == Handle { id: 1, data: Rc::new(Opaque) });
//! ```
//!
//! The built-in derive can do neither: `data` is ignored, and `Opaque` need not be comparable.
//!
//! # Installing the program
//!
//! The macro makes no impl itself. It passes the definition to the program `educe` and returns the items that the program
//! prints. The program is proved: what it prints means what the definition and its attributes say. The macro is not proved,
//! and decides nothing about an impl.
//!
//! Build the program, as the README of its repository says. Then install it as `educe` on your `PATH`, or set the environment
//! variable `EDUCE` to its path where the crate is compiled:
//!
//! ```text
//! install crates/educe_cli/out/educe_cli ~/.cargo/bin/educe
//! ```
//!
//! Cargo compiles the crates that use the macro again when the program or `EDUCE` changes.
//!
//! # Traits
//!
//! The attributes shown here are the most common ones. `docs/ATTRIBUTES.md` in the repository of the program has all of them.
//!
//! ## `Debug`
//!
//! A field can be left out, renamed or shown by a function. The name of the type can be changed or left out.
//!
//! ```
//! use educe::Educe;
//! use std::fmt;
//!
//! #[derive(Educe)]
//! #[educe(Debug(name = Login))]
//! struct Credentials {
//!     user: String,
//!     #[educe(Debug(method = hidden))]
//!     password: String,
//!     #[educe(Debug(ignore))]
//!     attempts: u32,
//! }
//!
//! fn hidden(_: &String, f: &mut fmt::Formatter<'_>) -> fmt::Result {
//!     f.write_str("***")
//! }
//!
//! let login = Credentials { user: "ada".to_owned(), password: "secret".to_owned(), attempts: 2 };
//! assert_eq!(format!("{login:?}"), r#"Login { user: "ada", password: *** }"#);
//! ```
//!
//! ## `Clone`
//!
//! A field can be cloned by a function. A parameter that occurs only inside `Rc` or `Arc` gets no bound.
//!
//! ```
//! use educe::Educe;
//! use std::sync::Arc;
//!
//! #[derive(Educe)]
//! #[educe(Clone)]
//! struct Task<T> {
//!     input: Arc<T>,
//!     #[educe(Clone(method = fresh))]
//!     output: Vec<u8>,
//! }
//!
//! fn fresh(_: &Vec<u8>) -> Vec<u8> {
//!     Vec::new()
//! }
//!
//! struct Opaque;
//! let task = Task { input: Arc::new(Opaque), output: vec![1, 2] };
//! assert!(task.clone().output.is_empty());
//! ```
//!
//! ## `Copy`
//!
//! A parameter that occurs only inside `PhantomData` gets no bound, so this `Index<String>` is `Copy`.
//!
//! ```
//! use educe::Educe;
//! use std::marker::PhantomData;
//!
//! #[derive(Educe)]
//! #[educe(Clone, Copy)]
//! struct Index<T> {
//!     place: usize,
//!     owner: PhantomData<T>,
//! }
//!
//! let first: Index<String> = Index { place: 0, owner: PhantomData };
//! let second = first;
//! assert_eq!(first.place, second.place);
//! ```
//!
//! ## `PartialEq`
//!
//! A field can be ignored or compared by a function.
//!
//! ```
//! use educe::Educe;
//!
//! #[derive(Educe)]
//! #[educe(PartialEq)]
//! struct Header {
//!     #[educe(PartialEq(method = same_name))]
//!     name: String,
//!     value: String,
//! }
//!
//! fn same_name(a: &String, b: &String) -> bool {
//!     a.eq_ignore_ascii_case(b)
//! }
//!
//! let header = |name: &str| Header { name: name.to_owned(), value: "1".to_owned() };
//! assert!(header("Age") == header("AGE"));
//! assert!(header("Age") != header("Ages"));
//! ```
//!
//! ## `Eq`
//!
//! The type of each field has to be `Eq`, except for fields that `PartialEq` ignores or compares by a function.
//!
//! ```
//! use educe::Educe;
//!
//! #[derive(Educe)]
//! #[educe(PartialEq, Eq)]
//! struct Measured {
//!     name: String,
//!     #[educe(PartialEq(ignore))]
//!     seconds: f64,
//! }
//!
//! fn is_eq<T: Eq>(_: &T) {}
//! is_eq(&Measured { name: "sort".to_owned(), seconds: 0.5 });
//! ```
//!
//! ## `PartialOrd`
//!
//! Fields are compared by ascending rank. Those without a rank come first, in written order.
//!
//! ```
//! use educe::Educe;
//!
//! #[derive(Educe)]
//! #[educe(PartialEq, PartialOrd)]
//! struct Reading {
//!     #[educe(PartialOrd(rank = 2))]
//!     value: f64,
//!     #[educe(PartialOrd(rank = 1))]
//!     time: u64,
//! }
//!
//! let reading = |value, time| Reading { value, time };
//! assert!(reading(9.0, 1) < reading(1.0, 2));
//! assert_eq!(reading(f64::NAN, 1).partial_cmp(&reading(1.0, 1)), None);
//! ```
//!
//! ## `Ord`
//!
//! `reverse` sorts by a field downwards. If `PartialOrd` is listed too, it uses a field's attribute of `Ord`, unless the field
//! has one of `PartialOrd`.
//!
//! ```
//! use educe::Educe;
//!
//! #[derive(Educe)]
//! #[educe(PartialEq, Eq, PartialOrd, Ord)]
//! struct Job {
//!     #[educe(PartialEq(ignore), Ord(ignore))]
//!     name: &'static str,
//!     #[educe(Ord(reverse))]
//!     priority: u8,
//! }
//!
//! let mut jobs = [Job { name: "clean", priority: 1 }, Job { name: "build", priority: 9 }];
//! jobs.sort();
//! assert_eq!(jobs[0].name, "build");
//! ```
//!
//! ## `Hash`
//!
//! A field can be ignored or hashed by a function. Ignore each field that `PartialEq` ignores, so that equal values hash alike.
//!
//! ```
//! use educe::Educe;
//! use std::collections::HashSet;
//!
//! #[derive(Educe)]
//! #[educe(PartialEq, Eq, Hash)]
//! struct Key {
//!     id: u32,
//!     #[educe(PartialEq(ignore), Hash(ignore))]
//!     label: String,
//! }
//!
//! let key = |id, label: &str| Key { id, label: label.to_owned() };
//! let keys: HashSet<Key> = [key(1, "a"), key(1, "b"), key(2, "a")].into_iter().collect();
//! assert_eq!(keys.len(), 2);
//! ```
//!
//! ## `Default`
//!
//! A field or the whole type can have a value, and a variant can be marked as the default. `new` adds a function `new`.
//!
//! ```
//! use educe::Educe;
//!
//! #[derive(Educe)]
//! #[educe(Default(new))]
//! struct Config {
//!     #[educe(Default = "localhost")]
//!     host: String,
//!     #[educe(Default = 8080)]
//!     port: u16,
//!     verbose: bool,
//! }
//!
//! let config = Config::new();
//! assert_eq!((config.host.as_str(), config.port, config.verbose), ("localhost", 8080, false));
//! ```
//!
//! # The output
//!
//! The program prints one impl for each listed trait, on a line of its own. For the `Handle` above, `rustfmt` lays it out so:
//!
//! ```text
//! #[automatically_derived]
//! impl<T> ::core::cmp::PartialEq for Handle<T> {
//!     fn eq(&self, other: &Self) -> ::core::primitive::bool {
//!         if ::core::cmp::PartialEq::ne(&self.id, &other.id) {
//!             return false;
//!         }
//!         true
//!     }
//! }
//! ```
//!
//! To see the output for another definition, run `educe expand < FILE`.
//!
//! # Errors
//!
//! A definition that the program rejects is a compile error at the faulty token:
//!
//! ```text
//! error: the rank `1` is repeatedly used
//!  --> src/lib.rs:9:24
//!   |
//! 9 |     #[educe(Ord(rank = 1))]
//!   |                        ^
//! ```
//!
//! Unions, `Deref`, `DerefMut` and `Into` are not implemented:
//!
//! ```compile_fail
//! # use educe::Educe;
//! #[derive(Educe)]
//! #[educe(Debug)]
//! union Bits {
//!     float: f32,
//!     word: u32,
//! }
//! ```
//!
//! If the program is missing or doesn't answer, the error is at the derive. It names the program, and says what failed and
//! what to do.

mod grouping;
mod program;
mod report;
mod source;

use proc_macro::{Span, TokenStream};

use program::{Answer, Failure, Program};
use report::{compile_error, Rejection};
use source::Source;

/// Implements the traits that `#[educe(..)]` lists. See the [page of the crate](crate).
#[proc_macro_derive(Educe, attributes(educe))]
pub fn derive_educe(definition: TokenStream) -> TokenStream {
    let source = Source::new(definition);
    let program = Program::find();
    let expanded = program
        .expand(source.text())
        .and_then(|answer| match answer {
            Answer::Items(text) => text
                .parse()
                .map_err(|error: proc_macro::LexError| Failure::NoTokens(error.to_string())),
            Answer::Rejected(message) => Ok(rejected(&source, &message)),
        });
    expanded.unwrap_or_else(|failure| compile_error(Span::call_site(), &program.explain(&failure)))
}

/// The error at the token that a message names, or at the derive if it names none.
fn rejected(source: &Source, message: &str) -> TokenStream {
    match Rejection::parse(message) {
        Some(rejection) => compile_error(source.span_at(rejection.place), &rejection.message),
        None => compile_error(Span::call_site(), message),
    }
}
