//! What the compiler finds wrong in the impls is reported at the derive.
use educe::Educe;

struct Opaque;

#[derive(Educe)] //~ 10: can't compare `Opaque` with `_`: no implementation for `Opaque == _`
#[educe(PartialEq)]
struct Wrapper {
    content: Opaque,
}

fn main() {}
