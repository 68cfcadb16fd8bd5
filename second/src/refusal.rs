//! Refusals, by name, with their numbers in one table.

/// Why something is refused. The value is the refusal's number.
#[derive(Clone, Copy, PartialEq, Eq, Debug)]
pub enum Why {
    /// n is 0 or over the limit.
    NodeCount = 1,
    /// m is over the limit.
    LinkCount = 2,
    /// The root is not a node.
    Root = 3,
    /// The depth is neither bounded nor the whole search.
    Depth = 4,
    /// The tie rule is not 0 or 1. Its place in the order is here.
    Rule = 14,
    /// An end is not a node, or both ends are equal.
    Ends = 5,
    /// The service mark is not 0 or 1.
    Mark = 6,
    /// The parent link is not one.
    ParentLink = 7,
    /// A node has no route to the root, or what is asked is no node.
    NoRoute = 8,
    /// A link breaks shortness.
    Shortness = 9,
    /// The lent room is too short for the answer.
    Room = 10,
    /// The changed link does not exist.
    NoSuchLink = 11,
    /// The changed link is a parent link.
    TreeLink = 12,
    /// The change would break shortness.
    ChangeShortness = 13,
    /// The start is not a node.
    Start = 15,
    /// The failed node is not a node, or is the root.
    Failed = 16,
    /// The failed node has no swap link, and the start is cut off.
    NoSwap = 17,
    /// The file's length is wrong.
    FileLength = 20,
    /// The block's check is wrong.
    BlockCheck = 21,
    /// The block's kind, edition, number, used count or filler is wrong.
    BlockForm = 22,
    /// The stored entry is not the one worked out.
    StoredEntry = 24,
}

/// A refusal: why, and the place.
#[derive(Clone, Copy, PartialEq, Eq, Debug)]
pub struct Refusal {
    pub why: Why,
    pub place: usize,
}

impl Refusal {
    /// The number of the refusal.
    pub fn number(&self) -> u16 {
        self.why as u16
    }

    /// `refused N P`, as the listing and the probe print it.
    pub fn words(&self) -> String {
        format!("refused {} {}", self.number(), self.place)
    }
}

/// Refuses at the place.
pub fn refuse<T>(why: Why, place: usize) -> Result<T, Refusal> {
    Err(Refusal { why, place })
}

/// Refuses at the lowest of the first `count` places that is bad, if one is.
pub fn refuse_lowest(why: Why, count: usize, bad: impl Fn(usize) -> bool) -> Result<(), Refusal> {
    match (0..count).find(|&place| bad(place)) {
        Some(place) => refuse(why, place),
        None => Ok(()),
    }
}
