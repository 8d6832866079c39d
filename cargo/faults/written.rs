//! A fault that a macro's caller wrote is reported there.
use educe::Educe;

macro_rules! compared {
    ($method:expr) => {
        #[derive(Educe)]
        #[educe(PartialEq)]
        struct Compared(#[educe(PartialEq(method = $method))] u8);
    };
}

compared!(1); //~ 11: expected `method = Path`

fn main() {}
