//! A call and its fields.

use crate::words::{CallWords, WORDS_IN_A_CALL};

/// The name of a node, 1 to 65,535.
#[derive(Clone, Copy, PartialEq, Eq, PartialOrd, Ord, Hash, Debug)]
pub struct Node(pub u16);

/// The name of an edge, 1 to 65,535.
#[derive(Clone, Copy, PartialEq, Eq, PartialOrd, Ord, Hash, Debug)]
pub struct Edge(pub u16);

/// The name of a space, 1 to 65,535. UNIVERSE has none.
#[derive(Clone, Copy, PartialEq, Eq, PartialOrd, Ord, Hash, Debug)]
pub struct SpaceName(pub u16);

/// The space of a call.
#[derive(Clone, Copy, PartialEq, Eq, Hash, Debug)]
pub enum Space {
    /// The universal space, which has all nodes and edges.
    Universe,
    /// The space of this name.
    Numbered(SpaceName),
    /// No selection, `-` in a script: the graph is not looked at, and no word
    /// is changed. C, B and D operators answer the first node, and 0 tuples
    /// added or removed; X operators say no, S operators answer an empty list;
    /// V operators and CUS to DUS are refused, 12. Both SUS do not read the
    /// space.
    Nothing,
}

/// A call. Fields that its operator does not read have no effect.
///
/// ```
/// use gaffdamson::{operator, Call, Node, Space, SpaceName};
///
/// let create = Call {
///     n: Node(1),
///     space: Space::Numbered(SpaceName(2)),
///     ..Call::new(operator::CUN)
/// };
/// assert_eq!(create.operator, 45);
/// ```
#[derive(Clone, Copy, PartialEq, Eq, Hash, Debug)]
pub struct Call {
    /// A number of [`operator`](crate::operator); any other is refused.
    pub operator: u32,
    /// The first node.
    pub n: Node,
    /// The edge.
    pub g: Edge,
    /// The second node.
    pub m: Node,
    /// The value; 0 is NIL.
    pub v: u32,
    /// The space.
    pub space: Space,
}

impl Call {
    /// A call on UNIVERSE, with a value of NIL and no names.
    pub const fn new(operator: u32) -> Call {
        Call {
            operator,
            n: Node(0),
            g: Edge(0),
            m: Node(0),
            v: 0,
            space: Space::Universe,
        }
    }

    /// The call as [`run`](crate::run) takes it, with a list of so many places.
    pub fn words(&self, list_length: u32) -> [u32; WORDS_IN_A_CALL] {
        let words = CallWords::from(self);
        [
            words.operator,
            words.n,
            words.g,
            words.m,
            words.value_form,
            words.v,
            words.space_form,
            words.s,
            list_length,
        ]
    }
}

#[cfg(test)]
mod tests {
    use super::*;

    #[test]
    fn each_field_has_its_place_in_the_words() {
        let call = Call {
            operator: 4,
            n: Node(1),
            g: Edge(2),
            m: Node(3),
            v: u32::MAX,
            space: Space::Numbered(SpaceName(65_535)),
        };
        let words = [4, 1, 2, 3, 1, u32::MAX, 1, 65_535, 9];
        assert_eq!(call.words(9), words);
        assert_eq!(Call::new(56).words(0), [56, 0, 0, 0, 0, 0, 0, 0, 0]);
        let nothing = Call {
            space: Space::Nothing,
            ..Call::new(50)
        };
        assert_eq!(nothing.words(3), [50, 0, 0, 0, 0, 0, 2, 0, 3]);
    }
}
