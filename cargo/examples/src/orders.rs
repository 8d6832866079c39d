//! Values with an order of their own.

use std::cmp::Ordering;

use educe::Educe;

/// A version, written with its suffix first and ordered by its numbers first.
#[derive(Educe)]
#[educe(Debug, Clone, PartialEq, Eq, PartialOrd, Ord)]
pub struct Version {
    /// A suffix such as `rc1`; none is the highest.
    #[educe(Ord(rank = 4, method = suffix_order))]
    pub suffix: Option<&'static str>,
    #[educe(Ord(rank = 3))]
    pub patch: u32,
    #[educe(Ord(rank = 2))]
    pub minor: u32,
    #[educe(Ord(rank = 1))]
    pub major: u32,
}

fn suffix_order(a: &Option<&'static str>, b: &Option<&'static str>) -> Ordering {
    (a.is_none(), a).cmp(&(b.is_none(), b))
}

/// A measurement, ordered by time; two values that are not a number are equal.
#[derive(Educe)]
#[educe(Debug, Clone, Copy, PartialEq, PartialOrd)]
pub struct Reading {
    #[educe(PartialEq(method = same), PartialOrd(rank = 2))]
    pub value: f64,
    #[educe(PartialOrd(rank = 1))]
    pub second: u64,
}

fn same(a: &f64, b: &f64) -> bool {
    a == b || a.is_nan() && b.is_nan()
}

/// A level, ordered by its discriminant.
#[derive(Educe)]
#[educe(Debug(name = true), Clone, Copy, PartialEq, Eq, PartialOrd, Ord, Hash)]
#[repr(i8)]
pub enum Level {
    Error = 2,
    Warning = 1,
    Note = -1,
}

/// A message, the newest first; of one second the more urgent one first, and then by its text.
#[derive(Educe)]
#[educe(Debug, Clone, PartialEq, Eq, PartialOrd, Ord)]
pub struct Message {
    #[educe(Ord(reverse, rank = 1))]
    pub second: u64,
    #[educe(Ord(reverse, rank = 2, method = urgency))]
    pub level: Level,
    #[educe(Ord(rank = 3))]
    pub text: &'static str,
}

/// Notes and warnings are equally urgent, and errors more.
fn urgency(a: &Level, b: &Level) -> Ordering {
    (*a == Level::Error).cmp(&(*b == Level::Error))
}

/// A place in a league: the clubs without points last, the others by points and goals downwards.
#[derive(Educe)]
#[educe(Debug, Clone, PartialEq, PartialOrd)]
pub enum Standing {
    Playing {
        #[educe(PartialOrd(reverse))]
        points: u32,
        #[educe(PartialOrd(reverse))]
        goals: f64,
        name: &'static str,
    },
    Waiting(&'static str),
}

#[cfg(test)]
mod tests {
    use super::*;

    fn version(major: u32, minor: u32, patch: u32, suffix: Option<&'static str>) -> Version {
        Version {
            suffix,
            patch,
            minor,
            major,
        }
    }

    #[test]
    fn versions_are_ordered_by_rank() {
        let sorted = [
            version(0, 9, 9, None),
            version(1, 0, 0, Some("rc1")),
            version(1, 0, 0, Some("rc2")),
            version(1, 0, 0, None),
            version(1, 0, 7, Some("rc1")),
            version(1, 2, 0, None),
        ];
        for (place, low) in sorted.iter().enumerate() {
            for (other, high) in sorted.iter().enumerate() {
                assert_eq!(low.cmp(high), place.cmp(&other));
                assert_eq!(low.partial_cmp(high), Some(place.cmp(&other)));
                assert_eq!(low == high, place == other);
            }
        }
    }

    #[test]
    fn readings_are_ordered_by_time() {
        let (early, late) = (
            Reading {
                value: 9.0,
                second: 1,
            },
            Reading {
                value: f64::NAN,
                second: 2,
            },
        );
        assert!(early < late);
        assert_eq!(late, late);
        assert_eq!(late.partial_cmp(&late), None);
    }

    #[test]
    fn messages_are_sorted_as_a_model_does() {
        let mut messages = Vec::new();
        for text in ["b", "a"] {
            for level in [Level::Note, Level::Error, Level::Warning] {
                for second in [1, 3, 2] {
                    messages.push(Message {
                        second,
                        level,
                        text,
                    });
                }
            }
        }
        let key = |message: &Message| {
            let is_urgent = message.level == Level::Error;
            (u64::MAX - message.second, !is_urgent, message.text)
        };
        for a in &messages {
            for b in &messages {
                assert_eq!(a.cmp(b), key(a).cmp(&key(b)));
                assert_eq!(a.partial_cmp(b), Some(a.cmp(b)));
            }
        }
        let mut model = messages.clone();
        model.sort_by_key(key);
        messages.sort();
        assert_eq!(messages, model);
    }

    #[test]
    fn standings_are_sorted_downwards() {
        let playing = |points, goals, name| Standing::Playing {
            points,
            goals,
            name,
        };
        let sorted = [
            playing(9, 1.0, "a"),
            playing(7, 5.0, "b"),
            playing(7, 4.0, "a"),
            playing(7, 4.0, "b"),
            Standing::Waiting("a"),
            Standing::Waiting("b"),
        ];
        for (place, low) in sorted.iter().enumerate() {
            for (other, high) in sorted.iter().enumerate() {
                assert_eq!(low.partial_cmp(high), Some(place.cmp(&other)));
            }
        }
        let unknown = playing(7, f64::NAN, "c");
        assert_eq!(unknown.partial_cmp(&sorted[1]), None);
        assert_eq!(unknown.partial_cmp(&sorted[0]), Some(Ordering::Greater));
    }

    #[test]
    fn levels_are_ordered_by_discriminant() {
        let mut levels = [Level::Error, Level::Warning, Level::Note];
        levels.sort();
        assert_eq!(levels, [Level::Note, Level::Warning, Level::Error]);
        assert_eq!(format!("{:?}", Level::Note), "Level::Note");
    }
}
