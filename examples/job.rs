/// How far a job is. Jobs that run come before those that wait, and those that wait are ordered by
/// their priority.
#[derive(Debug)]
#[educe(PartialEq, Eq, PartialOrd, Ord, Hash, Default)]
#[repr(u8)]
pub enum Job {
    Waiting {
        #[educe(Ord(rank = 2))]
        name: String,
        #[educe(Ord(rank = 1))]
        priority: u32,
    } = 10,
    Running(
        u64,
        #[educe(PartialEq(ignore), Ord(ignore), Hash(ignore))]
        Option<Box<str>>,
    ) = 1,
    #[educe(Default)]
    Done,
    Failed(String) = 0xFF,
}
