//! Places behind letters of more than one byte, and behind literals with line breaks.
use educe::Educe;

/// żółć
#[derive(Educe)]
#[educe(Default, PartialEq)]
struct Text {
    /** Two
    lines. */
    #[educe(Default = "ż
        ó")]
    żółć: String,
    /** Two
    lines. */ #[educe(PartialEq(method = 1))] //~ 42: expected `method = Path`
    more: String,
}

fn main() {}
