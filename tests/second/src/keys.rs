//! What can stand behind a key: a value and its range, and the kinds of lines
//! as rows of keys.

use std::fmt::{Debug, Write};

use crate::text::{number, Fault, Line};

/// What can stand behind a key.
pub trait Value: Sized {
    /// The value that these bytes say, if they have the sheet's form.
    fn read(bytes: &[u8]) -> Option<Self>;
    /// Appends the value as the sheet prints it.
    fn write(&self, out: &mut String);
    /// The number, unless it is missing.
    fn known(&self) -> Option<i64>;
}

impl Value for i64 {
    fn read(bytes: &[u8]) -> Option<Self> {
        number(bytes)
    }

    fn write(&self, out: &mut String) {
        // Appending to a string cannot fail.
        let _ = write!(out, "{self}");
    }

    fn known(&self) -> Option<i64> {
        Some(*self)
    }
}

/// A number that may be missing, which is printed as a lone minus.
impl Value for Option<i64> {
    fn read(bytes: &[u8]) -> Option<Self> {
        if bytes == b"-" {
            return Some(None);
        }
        number(bytes).map(Some)
    }

    fn write(&self, out: &mut String) {
        match self {
            Some(value) => value.write(out),
            None => out.push('-'),
        }
    }

    fn known(&self) -> Option<i64> {
        *self
    }
}

/// Appends ` key=value`, or `key=value` at the start of a line.
pub fn write_pair<T: Value>(out: &mut String, key: &str, value: &T) {
    if !out.is_empty() && !out.ends_with('\n') {
        out.push(' ');
    }
    out.push_str(key);
    out.push('=');
    value.write(out);
}

/// Which side of its range a number missed.
#[derive(Clone, Copy, Debug, PartialEq, Eq, PartialOrd, Ord, Hash)]
pub enum Side {
    /// Below the lowest.
    Below,
    /// Above the highest.
    Above,
}

/// The numbers that a key allows, both ends included.
#[derive(Clone, Copy, Debug, PartialEq, Eq)]
pub struct Range {
    /// The lowest.
    pub low: i64,
    /// The highest.
    pub high: i64,
}

impl Range {
    /// From `low` to `high`.
    pub const fn new(low: i64, high: i64) -> Self {
        Range { low, high }
    }

    /// The side on which the value lies outside, if it does.
    pub fn missed(self, value: i64) -> Option<Side> {
        match value {
            v if v < self.low => Some(Side::Below),
            v if v > self.high => Some(Side::Above),
            _ => None,
        }
    }
}

/// Seconds of an interval.
pub const SECONDS: Range = Range::new(1, 900);
/// Hours of a day: 24, one less when the clock goes forward, one more when it
/// goes back.
pub const DAY_HOURS: Range = Range::new(23, 25);
/// Hour of the day; a block by itself may be one of the longest day.
pub const HOUR: Range = Range::new(0, 24);
/// Energy, actual or scheduled, and points of a curve: a withdrawal is below 0.
pub const ENERGY: Range = Range::new(-2_000_000, 2_000_000);
/// Power that cannot be negative: reserves, regulation, movement, limits.
pub const POWER: Range = Range::new(0, 2_000_000);
/// Bids for reserves and regulation, and both prices of movement.
pub const BID: Range = Range::new(0, 1_000_000);
/// All other prices.
pub const PRICE: Range = Range::new(-1_000_000, 1_000_000);
/// A single mark.
pub const MARK: Range = Range::new(0, 1);
/// The number of a unit or of an import.
pub const NAME: Range = Range::new(1, 9_999_999);

/// What a block may say as its hour in a day of so many hours. Hour 23 is in
/// range in a day of 23 as well, where no place expects it.
pub fn hour_in_day(hours: i64) -> Range {
    if hours == DAY_HOURS.high {
        HOUR
    } else {
        Range::new(0, 23)
    }
}

/// A number of the sheet with the line and key that it stands under.
#[derive(Clone, Copy, Debug, PartialEq, Eq)]
pub struct Number {
    /// The kind of line.
    pub line: &'static str,
    /// The key.
    pub key: &'static str,
    /// The value, unless it is missing.
    pub value: Option<i64>,
    /// What the key allows.
    pub range: Range,
}

impl Number {
    /// The side on which the number lies outside; a missing one lies nowhere.
    pub fn missed(&self) -> Option<Side> {
        self.value.and_then(|value| self.range.missed(value))
    }
}

/// A kind of line, whichever it is.
pub trait SheetLine: Clone + Copy + Debug + Default + PartialEq + Eq {
    /// Reads the line, every key in its place.
    fn read(line: Line<'_>) -> Result<Self, Fault>;
    /// Appends the line as the sheet prints it, with its LF.
    fn write(&self, out: &mut String);
    /// The line's numbers in their order, each with what it may be.
    fn numbers(&self) -> Vec<Number>;
}

/// A kind of line: its keys in their order, each with what it allows. The
/// fields carry the sheet's own keys.
macro_rules! sheet_line {
    (
        $(#[$about:meta])*
        $name:ident {
            $( $(#[$field_about:meta])* $key:ident: $kind:ty => $range:expr, )*
        }
    ) => {
        $(#[$about])*
        #[derive(Clone, Copy, Debug, Default, PartialEq, Eq)]
        pub struct $name {
            $( $(#[$field_about])* pub $key: $kind, )*
        }

        impl $name {
            /// Reads the line, every key in its place.
            pub fn read(line: $crate::text::Line<'_>) -> Result<Self, $crate::text::Fault> {
                let mut pairs = $crate::text::Pairs::of(line)?;
                let read = $name { $( $key: pairs.value(stringify!($key))?, )* };
                pairs.end()?;
                Ok(read)
            }

            /// Appends the line as the sheet prints it, with its LF.
            pub fn write(&self, out: &mut String) {
                $( $crate::text::write_pair(out, stringify!($key), &self.$key); )*
                out.push('\n');
            }

            /// The line's numbers in their order, each with what it may be.
            pub fn numbers(&self) -> Vec<$crate::text::Number> {
                vec![ $( $crate::text::Number {
                    line: stringify!($name),
                    key: stringify!($key),
                    value: $crate::text::Value::known(&self.$key),
                    range: $range,
                }, )* ]
            }
        }

        impl $crate::keys::SheetLine for $name {
            fn read(line: $crate::text::Line<'_>) -> Result<Self, $crate::text::Fault> {
                $name::read(line)
            }

            fn write(&self, out: &mut String) {
                $name::write(self, out);
            }

            fn numbers(&self) -> Vec<$crate::text::Number> {
                $name::numbers(self)
            }
        }
    };
}
pub(crate) use sheet_line;

#[cfg(test)]
mod tests {
    use super::*;

    #[test]
    fn only_a_lone_minus_is_missing() {
        assert_eq!(<Option<i64> as Value>::read(b"-"), Some(None));
        assert_eq!(<Option<i64> as Value>::read(b"0"), Some(Some(0)));
        assert_eq!(<Option<i64> as Value>::read(b"-5"), Some(Some(-5)));
        assert_eq!(<Option<i64> as Value>::read(b""), None);
        assert_eq!(<Option<i64> as Value>::read(b"--"), None);
        assert_eq!(<i64 as Value>::read(b"-"), None);
    }

    #[test]
    fn ranges_include_both_ends() {
        assert_eq!(SECONDS.missed(0), Some(Side::Below));
        assert_eq!(SECONDS.missed(1), None);
        assert_eq!(SECONDS.missed(900), None);
        assert_eq!(SECONDS.missed(901), Some(Side::Above));
    }

    #[test]
    fn hour_24_stands_in_a_day_of_25_hours_alone() {
        for hours in [i64::MIN, 0, 22, 23, 24, 26, i64::MAX] {
            assert_eq!(hour_in_day(hours), Range::new(0, 23), "{hours}");
        }
        assert_eq!(hour_in_day(25), Range::new(0, 24));
    }
}
