/// A stack whose topmost items stand in an array. Stacks are compared from the top on.
#[derive(Debug)]
#[educe(PartialEq, Eq, PartialOrd, Ord, Hash)]
pub struct Stack<T, const N: usize = 4>
where
    T: Copy,
{
    #[educe(PartialEq(ignore), Ord(ignore), Hash(ignore))]
    pub name: &'static str,
    top: [T; N],
    below: Option<Box<Stack<T, N>>>,
}
