#[educe(PartialEq)]
struct Nothing;
