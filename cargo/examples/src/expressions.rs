//! Definitions that another macro writes: what it puts in place of `$value` or `$type` stays together.

/// A struct of one field, whose default is made from an expression in several ways.
macro_rules! computed {
    ($vis:vis $name:ident<$type:ty> = $value:expr) => {
        #[derive(educe::Educe)]
        #[educe(Debug, Clone, PartialEq, Default(bound($type: Copy)))]
        $vis struct $name {
            #[educe(Default = $value)]
            pub plain: $type,
            #[educe(Default = $value * 2)]
            pub doubled: $type,
            #[educe(Default(expression = -$value as i64 as $type))]
            pub negated: $type,
            #[educe(Default = <$type>::pow($value, 2))]
            pub squared: $type,
            #[educe(Default = $value.abs())]
            pub magnitude: $type,
        }
    };
}

computed!(pub Sum<i32> = 1i32 + 2);
computed!(pub Product<i64> = 3 * 4i64);
computed!(pub Word<i32> = FIVE);
computed!(pub Negative<i32> = -1i32);

/// A name, which needs no brackets.
pub const FIVE: i32 = 5;

/// An enum whose discriminants are made from an expression, ordered by them.
macro_rules! scaled {
    ($name:ident = $base:expr, $compare:path, $other:ty) => {
        #[derive(educe::Educe)]
        #[educe(Debug, Clone, PartialEq, PartialOrd)]
        #[repr(i32)]
        pub enum $name {
            Low(#[educe(PartialOrd(method = $compare))] u8) = $base * 2,
            High([u8; $base as usize * 2], Option<$other>) = 5,
        }
    };
}

scaled!(
    Scaled = 1 + 2,
    descending::<u8>,
    &'static (dyn Bound + Send)
);

/// What is compared by address.
pub trait Bound: std::fmt::Debug {}

impl PartialEq for dyn Bound + Send {
    fn eq(&self, other: &Self) -> bool {
        std::ptr::addr_eq(self, other)
    }
}

impl PartialOrd for dyn Bound + Send {
    fn partial_cmp(&self, _: &Self) -> Option<std::cmp::Ordering> {
        None
    }
}

fn descending<T: PartialOrd>(a: &T, b: &T) -> Option<std::cmp::Ordering> {
    b.partial_cmp(a)
}

#[cfg(test)]
mod tests {
    use super::*;

    #[test]
    fn expressions_stay_together() {
        let sum = Sum {
            plain: 3,
            doubled: 6,
            negated: -3,
            squared: 9,
            magnitude: 3,
        };
        assert_eq!(Sum::default(), sum);
        let product = Product {
            plain: 12,
            doubled: 24,
            negated: -12,
            squared: 144,
            magnitude: 12,
        };
        assert_eq!(Product::default(), product);
        let word = Word {
            plain: 5,
            doubled: 10,
            negated: -5,
            squared: 25,
            magnitude: 5,
        };
        assert_eq!(Word::default(), word);
        let negative = Negative {
            plain: -1,
            doubled: -2,
            negated: 1,
            squared: 1,
            magnitude: 1,
        };
        assert_eq!(Negative::default(), negative);
    }

    #[test]
    fn discriminants_stay_together() {
        // `Low` is 6 and `High` is 5; without its group `Low` would be 5 too.
        assert!(Scaled::Low(0) > Scaled::High([0; 6], None));
        assert!(Scaled::Low(0) > Scaled::Low(1));
        assert_eq!(format!("{:?}", Scaled::Low(7).clone()), "Low(7)");
    }
}
