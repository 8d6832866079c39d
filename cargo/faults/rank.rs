use educe::Educe;

#[derive(Educe)]
#[educe(Ord)]
struct Job {
    #[educe(Ord(rank = 1))]
    name: String,
    #[educe(Ord(rank = 1))] //~ 17: the rank `1` is repeatedly used
    priority: u8,
}

fn main() {}
