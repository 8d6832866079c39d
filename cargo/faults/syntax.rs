//! What the compiler reads and the program does not.
use educe::Educe;

#[derive(Educe)]
#[educe(Default)]
struct Ratio {
    #[educe(Default = 0.5)] //~ 23: `0.5` is not supported
    value: f64,
}

#[derive(Educe)]
#[educe(Default, Deref)] //~ 18: unsupported trait `Deref`, available traits:
struct Handle {
    value: u8,
}

#[derive(Educe)]
#[educe(Hash)]
struct List {
    first: u8,
    other: [u8; if true { 1 } else { 2 }], //~ 17: syntax error
}

fn main() {}
