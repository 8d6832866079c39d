//! Both errors are reported, each at its token.
use educe::Educe;

#[derive(Educe)]
#[educe(Default)]
enum Retry {
    #[educe(Default)]
    Never,
    #[educe(Default)] //~ 13: multiple default variants are set
    Always,
}

#[derive(Educe)]
#[educe(Debug)]
union Bits { //~ 1: `union` is not supported
    word: u32,
    float: f32,
}

fn main() {}
