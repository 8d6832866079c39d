#[educe(PartialEq)]
struct Account {
    number: u64,
    owner: String,
    balance: i128,
    open: bool,
}
