//! Keys of maps, of which only a part identifies the entry.

use std::cell::Cell;

use educe::Educe;

/// A path with a cached checksum, which takes no part in anything.
#[derive(Educe)]
#[educe(Debug, Clone, PartialEq, Eq, PartialOrd, Ord, Hash)]
pub struct PathKey {
    /// The path.
    pub path: String,
    #[educe(Debug(ignore), PartialEq(ignore), Ord(ignore), Hash(ignore))]
    checksum: Cell<Option<u32>>,
}

impl PathKey {
    /// The key of a path.
    pub fn new(path: &str) -> Self {
        PathKey {
            path: path.to_owned(),
            checksum: Cell::new(None),
        }
    }

    /// The checksum, computed at the first call.
    pub fn checksum(&self) -> u32 {
        let known = self.checksum.get();
        let checksum = known.unwrap_or_else(|| self.path.bytes().map(u32::from).sum());
        self.checksum.set(Some(checksum));
        checksum
    }
}

/// A header's name, in which the case of letters doesn't count.
#[derive(Educe)]
#[educe(Debug(name = false), Clone, PartialEq, Eq, Hash)]
pub struct HeaderName(
    #[educe(PartialEq(method = str_eq), Hash(method = hash_lower))] pub &'static str,
);

fn str_eq(a: &&'static str, b: &&'static str) -> bool {
    a.eq_ignore_ascii_case(b)
}

fn hash_lower<H: std::hash::Hasher>(name: &&'static str, state: &mut H) {
    for byte in name.bytes() {
        state.write_u8(byte.to_ascii_lowercase());
    }
}

#[cfg(test)]
mod tests {
    use super::*;
    use std::collections::{BTreeSet, HashMap, HashSet};

    #[test]
    fn the_cache_takes_no_part() {
        let (fresh, used) = (PathKey::new("a/b"), PathKey::new("a/b"));
        assert_eq!(used.checksum(), 97 + 47 + 98);
        assert_eq!(fresh, used);
        assert_eq!(HashSet::from([fresh.clone(), used.clone()]).len(), 1);
        assert_eq!(
            BTreeSet::from([fresh, used.clone(), PathKey::new("a")]).len(),
            2
        );
        assert_eq!(format!("{used:?}"), r#"PathKey { path: "a/b" }"#);
        assert_eq!(used.clone().checksum.get(), Some(97 + 47 + 98));
    }

    #[test]
    fn names_are_found_in_any_case() {
        let headers = HashMap::from([(HeaderName("Content-Length"), 12)]);
        assert_eq!(headers.get(&HeaderName("content-length")), Some(&12));
        assert_eq!(headers.get(&HeaderName("content-type")), None);
        assert_eq!(format!("{:?}", HeaderName("Age")), r#"("Age",)"#);
    }
}
