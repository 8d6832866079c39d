//! Values that must not be shown.

use std::fmt::{Formatter, Result};

use educe::Educe;

/// A secret of any type, shown as three stars. The type itself need not be shown.
#[derive(Educe)]
#[educe(Debug, Clone, PartialEq, Eq, Default)]
pub struct Secret<T>(#[educe(Debug(method = stars))] pub T);

/// Shows nothing of a value.
pub fn stars<T>(_: &T, f: &mut Formatter<'_>) -> Result {
    f.write_str("***")
}

/// An account; the token is shown under another name.
#[derive(Educe)]
#[educe(Debug, Clone, PartialEq, Eq)]
pub struct Account {
    pub user: String,
    #[educe(Debug = credential)]
    pub token: Secret<Vec<u8>>,
    #[educe(Debug(ignore))]
    pub salt: u64,
}

#[cfg(test)]
mod tests {
    use super::*;

    #[test]
    fn a_secret_is_not_shown() {
        let account = Account {
            user: "ada".to_owned(),
            token: Secret(vec![1, 2]),
            salt: 7,
        };
        assert_eq!(
            format!("{account:?}"),
            r#"Account { user: "ada", credential: Secret(***) }"#
        );
        assert_eq!(format!("{:#?}", account.token), "Secret(\n    ***,\n)");
    }

    #[test]
    fn a_secret_of_what_cannot_be_shown() {
        struct Opaque;
        assert_eq!(format!("{:?}", Secret(Opaque)), "Secret(***)");
    }

    #[test]
    fn the_salt_takes_part_in_equality() {
        let account = Account {
            user: String::new(),
            token: Secret::default(),
            salt: 7,
        };
        assert_eq!(account.clone(), account);
        assert_ne!(
            Account {
                salt: 8,
                ..account.clone()
            },
            account
        );
    }
}
