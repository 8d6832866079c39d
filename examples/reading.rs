/// What a sensor sends. The fields are not aligned, so they are copied before they are compared or hashed.
#[derive(Clone, Copy)]
#[educe(PartialEq, Eq, PartialOrd, Ord, Hash, Default)]
#[repr(C, packed)]
pub struct Reading<T> {
    channel: u8,
    #[educe(Ord(rank = -1))]
    time: u64,
    value: Option<T>,
}
