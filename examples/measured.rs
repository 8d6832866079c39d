/// What is shown of a measurement: the enum's name in front of each variant's, another name of a field, and
/// one that is left out.
#[educe(Debug(name = true), Clone, Default)]
pub enum Measured<T> {
    #[educe(Default)]
    Nothing,
    #[educe(Debug(name = Single))]
    One {
        #[educe(Debug(name = amount))]
        value: T,
        #[educe(Debug(ignore))]
        raw: u64,
    },
    #[educe(Debug(named_field = true))]
    Two(T, T),
    #[educe(Debug(name = false))]
    Unknown(String),
}
