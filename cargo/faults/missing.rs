//! Without an attribute there is nothing to derive.
use educe::Educe;

#[derive(Educe)]
struct Nothing; //~ 1: you are using `Educe` in the `derive` attribute, but it has not been set up yet

fn main() {}
