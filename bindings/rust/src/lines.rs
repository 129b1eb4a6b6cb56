//! Sets of the lines that one can wait for.
use crate::queue::Setup;
use std::fmt;
use std::ops::{BitOr, BitOrAssign};

/// The stock of free buffers, as a line behind those of the topics.
pub(crate) const FREE: u32 = Setup::MAX_TOPICS;
/// How many lines there are: 32, of which a set has a bit each.
pub(crate) const LINES: usize = FREE as usize + 1;

/// A set of lines of a [`Bell`](crate::Bell): topics, and the stock of free buffers. Sets are
/// joined by `|`; where a call asks for one, topics can be named in an array too.
///
/// ```
/// use scq::{Bell, Lines};
///
/// let bell = Bell::new();
/// bell.finish(&[0, 2]);
/// assert!(bell.is_finished(Lines::topic(0) | Lines::topic(2)));
/// assert!(!bell.is_finished(Lines::topics(3)));
/// bell.finish(Lines::ALL);
/// assert!(bell.is_finished(Lines::topic(1) | Lines::FREE));
/// ```
///
/// The number of a topic is no set:
///
/// ```compile_fail,E0277
/// scq::Bell::new().finish(0u32);
/// ```
#[derive(Clone, Copy, PartialEq, Eq, Hash, Default)]
pub struct Lines(u32);

impl Lines {
    /// No line.
    pub const NONE: Lines = Lines(0);
    /// The stock of free buffers, or the room of a ring.
    pub const FREE: Lines = Lines(1 << FREE);
    /// All topics.
    pub const ALL_TOPICS: Lines = Lines::topics(FREE);
    /// All topics, and the stock of free buffers.
    pub const ALL: Lines = Lines(u32::MAX);

    /// A topic; of one that no queue has, from 31 on, no line.
    ///
    /// ```
    /// # use scq::Lines;
    /// assert!(Lines::ALL_TOPICS.contains(Lines::topic(30)));
    /// assert!(Lines::topic(31).is_empty());
    /// ```
    pub const fn topic(topic: u32) -> Lines {
        if topic < FREE {
            Lines(1 << topic)
        } else {
            Lines::NONE
        }
    }

    /// The first so many topics.
    ///
    /// ```
    /// # use scq::Lines;
    /// assert_eq!(Lines::topics(2), Lines::topic(0) | Lines::topic(1));
    /// ```
    pub const fn topics(count: u32) -> Lines {
        let most = if count < FREE { count } else { FREE };
        Lines((1 << most) - 1)
    }

    /// Whether there is no line in the set.
    pub const fn is_empty(self) -> bool {
        self.0 == 0
    }

    /// Whether all lines of the other set are in this one.
    pub const fn contains(self, other: Lines) -> bool {
        other.0 & !self.0 == 0
    }

    /// A line by its number, which is below `LINES`.
    pub(crate) const fn of(line: u32) -> Lines {
        Lines(1 << line)
    }

    /// The lines that are in both sets.
    pub(crate) const fn and(self, other: Lines) -> Lines {
        Lines(self.0 & other.0)
    }

    /// How many lines there are.
    pub(crate) const fn count(self) -> u32 {
        self.0.count_ones()
    }

    /// The numbers of the lines, the lowest first.
    pub(crate) fn each(self) -> impl Iterator<Item = u32> {
        let mut lines = self.0;
        std::iter::from_fn(move || {
            let line = lines.trailing_zeros();
            lines &= lines.checked_sub(1)?;
            Some(line)
        })
    }

    /// The set as a word of which each line has a bit; and back.
    pub(crate) const fn bits(self) -> u32 {
        self.0
    }
    pub(crate) const fn of_bits(bits: u32) -> Lines {
        Lines(bits)
    }
}

impl BitOr for Lines {
    type Output = Lines;

    fn bitor(self, other: Lines) -> Lines {
        Lines(self.0 | other.0)
    }
}

impl BitOrAssign for Lines {
    fn bitor_assign(&mut self, other: Lines) {
        self.0 |= other.0;
    }
}

/// The set of these topics. What no queue has is left out.
impl From<&[u32]> for Lines {
    fn from(topics: &[u32]) -> Lines {
        topics.iter().fold(Lines::NONE, |lines, &topic| lines | Lines::topic(topic))
    }
}

/// The set of these topics. What no queue has is left out.
impl<const N: usize> From<&[u32; N]> for Lines {
    fn from(topics: &[u32; N]) -> Lines {
        Lines::from(&topics[..])
    }
}

/// The set of these topics. What no queue has is left out.
impl From<&Vec<u32>> for Lines {
    fn from(topics: &Vec<u32>) -> Lines {
        Lines::from(&topics[..])
    }
}

impl fmt::Debug for Lines {
    fn fmt(&self, f: &mut fmt::Formatter<'_>) -> fmt::Result {
        let topics = self.and(Lines::ALL_TOPICS).each();
        let free = self.and(Lines::FREE).each().map(|_| &"free" as &dyn fmt::Debug);
        let mut set = f.debug_set();
        set.entries(topics).entries(free).finish()
    }
}
