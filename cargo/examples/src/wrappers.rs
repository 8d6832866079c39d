//! Generic wrappers, whose impls ask no more of a parameter than they need.

use std::fmt::Debug;
use std::marker::PhantomData;
use std::sync::Arc;

use educe::Educe;

/// A place in the table of a type.
#[derive(Educe)]
#[educe(Debug, Clone, Copy, PartialEq, Eq, PartialOrd, Ord, Hash, Default)]
pub struct Id<T> {
    pub place: usize,
    #[educe(Debug(ignore))]
    pub of: PhantomData<fn() -> T>,
}

/// A value that is shared by all clones.
#[derive(Educe)]
#[educe(Debug, Clone, PartialEq, Eq, Hash)]
pub struct Shared<T: ?Sized>(pub Arc<T>);

/// A matrix of `W` columns.
#[derive(Educe)]
#[educe(Debug, Clone, PartialEq, Eq, Hash)]
pub struct Matrix<T, const W: usize> {
    pub rows: Vec<[T; W]>,
}

/// A pair whose predicates are written by hand.
#[derive(Educe)]
#[educe(Debug(bound(A: Debug)), Clone(bound = "A: Clone, B: Clone"), PartialEq(bound(*)))]
pub struct Pair<A, B> {
    pub first: A,
    #[educe(Debug(ignore))]
    pub second: B,
}

/// What came of a request. The check of `Eq` needs `E: 'a`, which `&'a E` implies elsewhere.
#[derive(Educe)]
#[educe(Debug, Clone, PartialEq, Eq, PartialOrd, Ord, Hash)]
pub enum Outcome<'a, T, E>
where
    E: ?Sized + 'a,
{
    Pending,
    Done(T),
    Failed { error: &'a E, attempts: u8 },
}

#[cfg(test)]
mod tests {
    use super::*;
    use std::collections::HashSet;

    struct Opaque;

    #[test]
    fn ids_ask_nothing_of_the_type() {
        let id: Id<Opaque> = Id {
            place: 3,
            of: PhantomData,
        };
        let copy = id;
        assert_eq!(id, copy);
        assert!(Id::<Opaque>::default() < id);
        assert_eq!(format!("{id:?}"), "Id { place: 3 }");
        assert_eq!(HashSet::from([id, copy]).len(), 1);
    }

    #[test]
    fn a_shared_value_may_be_unsized() {
        let text: Shared<str> = Shared(Arc::from("abc"));
        assert!(Arc::ptr_eq(&text.0, &text.clone().0));
        assert_eq!(format!("{text:?}"), r#"Shared("abc")"#);
    }

    #[test]
    fn matrices_are_compared() {
        let matrix = Matrix {
            rows: vec![[1, 2], [3, 4]],
        };
        assert_eq!(matrix.clone(), matrix);
        assert_ne!(matrix, Matrix { rows: vec![[1, 2]] });
    }

    #[test]
    fn predicates_are_those_that_are_written() {
        let pair = Pair {
            first: 1,
            second: Opaque,
        };
        assert_eq!(format!("{pair:?}"), "Pair { first: 1 }");
        assert!(
            Pair {
                first: 1,
                second: 2
            } == Pair {
                first: 1,
                second: 2
            }
            .clone()
        );
    }

    #[test]
    fn outcomes_are_ordered_by_variant() {
        let failed: Outcome<u8, str> = Outcome::Failed {
            error: "late",
            attempts: 2,
        };
        let (pending, done): (Outcome<u8, str>, Outcome<u8, str>) =
            (Outcome::Pending, Outcome::Done(9));
        assert!(pending < done && done < failed);
        assert_eq!(
            format!("{failed:?}"),
            r#"Failed { error: "late", attempts: 2 }"#
        );
        assert_eq!(failed.clone(), failed);
    }
}
