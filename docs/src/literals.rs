//! The literals of a question.

use std::collections::HashSet;

use crate::value::Value;
use crate::Refusal;

const MAX_LITERALS: usize = 1_024;
/// With up to so many literals each value is compared with each of them.
const FEW_LITERALS: usize = 8;
/// With more, so many values are, before a set is made, which takes about as long.
const FEW_VALUES: usize = 8;

/// Takes the literal that stands first.
#[inline]
fn take<'a, V: Value<'a>>(bytes: &mut &'a [u8]) -> Result<V, Refusal> {
    V::take(bytes).map_err(|refusal| match refusal {
        Refusal::Limit => Refusal::Limit,
        _ => Refusal::Literal,
    })
}

/// Tests all literals, and answers how many there are.
fn count<'a, V: Value<'a>>(literals: &'a [u8]) -> Result<usize, Refusal> {
    let mut bytes = literals;
    let mut number = 0;
    while !bytes.is_empty() {
        if number == MAX_LITERALS {
            return Err(Refusal::Limit);
        }
        take::<V>(&mut bytes)?;
        number += 1;
    }
    Ok(number)
}

/// The one literal of EQUAL.
pub fn only<'a, V: Value<'a>>(literals: &'a [u8]) -> Result<V, Refusal> {
    match count::<V>(literals)? {
        1 => take(&mut &literals[..]),
        _ => Err(Refusal::Literal),
    }
}

/// The literals of IN.
pub struct Listed<'a, V> {
    literals: &'a [u8],
    number: usize,
    /// How many values were compared with each literal.
    compared: usize,
    /// Empty until it is needed.
    set: HashSet<V>,
}

impl<'a, V: Value<'a>> Listed<'a, V> {
    /// Tests the literals.
    pub fn new(literals: &'a [u8]) -> Result<Listed<'a, V>, Refusal> {
        Ok(Listed { literals, number: count::<V>(literals)?, compared: 0, set: HashSet::new() })
    }

    /// Whether the value is listed.
    #[inline]
    pub fn has(&mut self, value: V) -> bool {
        if self.number <= FEW_LITERALS || self.compared < FEW_VALUES {
            self.compared += 1;
            return each::<V>(self.literals).any(|literal| literal.is(value));
        }
        if self.set.is_empty() {
            self.set.reserve(self.number);
            self.set.extend(each::<V>(self.literals));
        }
        self.set.contains(&value)
    }
}

/// The literals in turn.
fn each<'a, V: Value<'a>>(mut literals: &'a [u8]) -> impl Iterator<Item = V> + 'a {
    std::iter::from_fn(move || V::take(&mut literals).ok())
}
