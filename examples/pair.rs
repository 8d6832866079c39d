/// A name and how often it was seen.
#[derive(Debug)]
#[educe(PartialEq, Eq, Ord)]
#[educe(PartialOrd, Hash)]
pub struct Seen(
    pub String,
    #[educe(Ord(rank = -1))]
    pub(crate) Vec<(u32, Option<Box<[u8; 4]>>)>,
);
