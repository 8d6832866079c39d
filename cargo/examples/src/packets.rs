//! Data laid out as it is sent.

use educe::Educe;

/// The head of a packet. Fields that are not aligned are read by copies.
#[derive(Educe)]
#[educe(Debug, Clone, Copy, PartialEq, Eq, PartialOrd, Ord, Hash, Default)]
#[repr(C, packed)]
pub struct PacketHead {
    pub kind: u8,
    #[educe(Default = 16)]
    pub length: u32,
    #[educe(PartialEq(ignore), Ord(ignore), Hash(ignore))]
    pub checksum: u16,
}

/// What a packet asks for.
#[derive(Educe)]
#[educe(Debug, Clone, PartialEq, Eq, Hash)]
pub enum Request {
    Ping,
    Read { offset: u64, length: u32 },
    Write(u64, #[educe(Debug(method = length_only))] Vec<u8>),
}

/// Shows how many bytes there are.
pub fn length_only(bytes: &[u8], f: &mut std::fmt::Formatter<'_>) -> std::fmt::Result {
    write!(f, "{} bytes", bytes.len())
}

#[cfg(test)]
mod tests {
    use super::*;

    #[test]
    fn heads_are_compared_without_the_checksum() {
        let head = PacketHead {
            kind: 1,
            length: 2,
            checksum: 3,
        };
        assert_eq!(std::mem::size_of::<PacketHead>(), 7);
        assert_eq!(
            head,
            PacketHead {
                checksum: 4,
                ..head
            }
        );
        assert!(PacketHead::default() < head);
        assert_eq!({ PacketHead::default().length }, 16);
        assert_eq!(
            format!("{head:?}"),
            "PacketHead { kind: 1, length: 2, checksum: 3 }"
        );
    }

    #[test]
    fn data_is_shown_by_its_length() {
        assert_eq!(
            format!("{:?}", Request::Write(5, vec![0; 9])),
            "Write(5, 9 bytes)"
        );
        let read = Request::Read {
            offset: 1,
            length: 2,
        };
        assert_eq!(read.clone(), read);
        assert_ne!(read, Request::Ping);
    }
}
