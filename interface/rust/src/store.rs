//! A store that owns its buffer.

use crate::{call, is_store, prepare, Answer, Call, Pair, Refusal, MOST_RECORDS};

/// A store that owns its buffer.
#[derive(Clone, PartialEq, Eq, Debug)]
pub struct Store(Vec<u32>);

/// What a call that is not refused gives, with the entries of its list.
#[derive(Clone, PartialEq, Eq, Debug)]
pub enum Reply {
    /// Of a B operator: the name of a node or a space; UNIVERSE is 0.
    Name(u16),
    /// Of a C operator: the name, and how many tuples were added, in all
    /// spaces together.
    Added {
        /// The name of a node or a space; UNIVERSE is 0.
        name: u16,
        /// How many tuples; 0 where nothing changed.
        count: u32,
    },
    /// Of a D operator: the name, and how many tuples were removed, in all
    /// spaces together.
    Removed {
        /// The name of a node or a space.
        name: u16,
        /// How many tuples; 0 where nothing changed.
        count: u32,
    },
    /// A value; 0 is NIL.
    Value(u32),
    /// Whether what was asked for is there.
    YesNo(bool),
    /// Ascending by edge, then node, each once.
    List(Vec<Pair>),
}

impl Store {
    /// A fresh store with room for so many tuples, UNIVERSE among them: 1 to
    /// [`MOST_RECORDS`].
    pub fn new(records: usize) -> Result<Store, Refusal> {
        if records > MOST_RECORDS {
            return Err(Refusal::NOT_A_STORE);
        }
        let mut words = vec![0; 4 + 6 * records];
        prepare(&mut words)?;
        Ok(Store(words))
    }

    /// The store that some words are; the words again if they are none.
    pub fn from_words(words: Vec<u32>) -> Result<Store, Vec<u32>> {
        if is_store(&words) {
            Ok(Store(words))
        } else {
            Err(words)
        }
    }

    /// The words of the store, as they can be kept and read again.
    pub fn words(&self) -> &[u32] {
        &self.0
    }

    /// Makes one call, with a list that is long enough for any.
    pub fn call(&mut self, what: &Call) -> Result<Reply, Refusal> {
        let mut list = [0; MOST_RECORDS];
        match call(&mut self.0, what, &mut list) {
            Answer::Refusal(refusal) => Err(refusal),
            Answer::Name(name) => Ok(Reply::Name(name)),
            Answer::Added { name, count } => Ok(Reply::Added { name, count }),
            Answer::Removed { name, count } => Ok(Reply::Removed { name, count }),
            Answer::Value(value) => Ok(Reply::Value(value)),
            Answer::YesNo(is_so) => Ok(Reply::YesNo(is_so)),
            Answer::List(count) => {
                let entries = list[..count].iter().map(|&entry| Pair::from(entry));
                Ok(Reply::List(entries.collect()))
            }
        }
    }
}

#[cfg(test)]
mod tests {
    use super::*;
    use crate::{operator, Edge, Node, Space, SpaceName};

    fn added(name: u16, count: u32) -> Result<Reply, Refusal> {
        Ok(Reply::Added { name, count })
    }

    fn removed(name: u16, count: u32) -> Result<Reply, Refusal> {
        Ok(Reply::Removed { name, count })
    }

    #[test]
    fn a_store_has_room_for_1_to_2048_tuples() {
        for records in [0, 2_049, usize::MAX] {
            assert_eq!(Store::new(records), Err(Refusal::NOT_A_STORE));
        }
        for records in [1, 2_048] {
            assert!(Store::new(records).is_ok());
        }
    }

    #[test]
    fn each_kind_of_reply() {
        let mut store = Store::new(8).expect("a length of stores");
        let node = Call {
            n: Node(1),
            ..Call::new(operator::CUN)
        };
        let edge = |operator| Call {
            operator,
            g: Edge(7),
            m: Node(1),
            v: 60,
            ..node
        };
        assert_eq!(store.call(&node), added(1, 1));
        assert_eq!(store.call(&node), added(1, 0));
        assert_eq!(store.call(&edge(operator::COP)), added(1, 1));
        assert_eq!(store.call(&edge(operator::VOP)), Ok(Reply::Value(0)));
        assert_eq!(store.call(&edge(operator::BOP)), Ok(Reply::Name(1)));
        assert_eq!(store.call(&edge(operator::VOP)), Ok(Reply::Value(60)));
        assert_eq!(store.call(&edge(operator::XIP)), Ok(Reply::YesNo(true)));
        let pairs = vec![Pair { edge: 7, node: 1 }];
        assert_eq!(store.call(&edge(operator::SAP)), Ok(Reply::List(pairs)));
        let elsewhere = Call {
            space: Space::Numbered(SpaceName(2)),
            ..node
        };
        assert_eq!(store.call(&elsewhere), Err(Refusal::NO_SPACE));
        let remove = Call {
            operator: operator::DUN,
            ..node
        };
        assert_eq!(store.call(&remove), removed(1, 2));
        assert_eq!(store.call(&remove), removed(1, 0));
    }

    #[test]
    fn tuples_of_all_spaces_are_counted() {
        let mut store = Store::new(8).expect("a length of stores");
        let on_9 = |operator| Call {
            n: Node(1),
            space: Space::Numbered(SpaceName(9)),
            ..Call::new(operator)
        };
        assert_eq!(store.call(&on_9(operator::CUS)), added(9, 1));
        assert_eq!(store.call(&on_9(operator::CUN)), added(1, 2));
        let everywhere = Call {
            space: Space::Universe,
            ..on_9(operator::DUN)
        };
        assert_eq!(store.call(&everywhere), removed(1, 2));
        assert_eq!(store.call(&on_9(operator::DUS)), removed(9, 1));
        assert_eq!(store.call(&Call::new(operator::CUS)), added(0, 0));
    }

    #[test]
    fn nothing_is_looked_up_in_nothing() {
        let mut store = Store::new(1).expect("a length of stores");
        let before = store.clone();
        let on_nothing = |operator| Call {
            n: Node(1),
            g: Edge(7),
            m: Node(1),
            space: Space::Nothing,
            ..Call::new(operator)
        };
        let name = Ok(Reply::Name(1));
        assert_eq!(store.call(&on_nothing(operator::CUN)), added(1, 0));
        assert_eq!(store.call(&on_nothing(operator::BOP)), name);
        assert_eq!(store.call(&on_nothing(operator::DUN)), removed(1, 0));
        assert_eq!(
            store.call(&on_nothing(operator::XOP)),
            Ok(Reply::YesNo(false))
        );
        assert_eq!(
            store.call(&on_nothing(operator::SUN)),
            Ok(Reply::List(vec![]))
        );
        for operator in [operator::VUN, operator::CUS, operator::DUS] {
            let answer = store.call(&on_nothing(operator));
            assert_eq!(answer, Err(Refusal::NEEDS_SPACE));
        }
        assert_eq!(store, before);
    }

    #[test]
    fn the_words_of_a_store_are_one() {
        let mut store = Store::new(3).expect("a length of stores");
        let create = Call {
            n: Node(1),
            ..Call::new(operator::CUN)
        };
        assert_eq!(store.call(&create), added(1, 1));
        let mut words = store.words().to_vec();
        assert_eq!(Store::from_words(words.clone()), Ok(store));
        words[3] += 1;
        assert_eq!(Store::from_words(words.clone()), Err(words));
    }
}
