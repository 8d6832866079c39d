/// An owner, and a token that is shown by hexadecimal digits: a map, since the name of the type is not shown.
#[educe(Debug(name = false))]
pub struct Session<'a> {
    owner: &'a str,
    #[educe(Debug(method = std::fmt::LowerHex::fmt))]
    token: u64,
}
