#[educe(PartialEq, Eq, PartialOrd, Ord, Hash, Default(new))]
struct Version {
    #[educe(PartialEq(ignore), Ord(ignore), Hash(ignore), Default = "unnamed")]
    label: String,
    #[educe(Ord(rank = 2))]
    minor: u32,
    #[educe(Ord(rank = 1))]
    major: u32,
}
