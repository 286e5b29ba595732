//! Why a call is refused.

use std::error::Error;
use std::fmt;

/// Why a call is refused: the rule book's names for its numbers. Whatever it is, the mesh and its counters are as they were before the call.
///
/// Later versions of the library have more refusals, so a `match` needs an arm for the others. A number that this crate has no name for is
/// a refusal all the same, [`Unknown`](Refusal::Unknown).
#[derive(Clone, Copy, Debug, PartialEq, Eq, Hash)]
#[non_exhaustive]
pub enum Refusal {
    /// 1: a table is unsound or over the limit, or working room is too small. A [`Mesh`](crate::Mesh) answers it only where it is made.
    Tables,
    /// 2: more than 64 keys; a given number, or a moved coordinate, that is not finite.
    Argument,
    /// 3: fewer than three keys, or a key twice; a split of vertices that are one or neighbours; an unfinished mesh.
    TopologyMalformed,
    /// 4: an unknown vertex, face or arc; a split between vertices that are not both on the face.
    TopologyNotFound,
    /// 5: an arc that is needed has a face already, or leads on within the new face.
    TopologyConflict,
    /// 6: a bridge of faces that have not as many vertices as each other.
    ArityNonUniform,
    /// 7: free rows fewer than the edit's need, or keys used up.
    NoRoom,
    /// 8: the mesh would not be sound afterwards.
    WouldBreak,
    /// 13: a face that goes in has two neighbouring corners in one spot: all three coordinates equal, so that -0.0 equals 0.0.
    SamePlace,
    /// A number that this crate has no name for, from an archive that is newer than the crate. It is never 0, nor one of those above.
    Unknown(u32),
}

impl Refusal {
    /// All that have a name, in the order of their numbers.
    pub const ALL: &'static [Refusal] = &[
        Refusal::Tables,
        Refusal::Argument,
        Refusal::TopologyMalformed,
        Refusal::TopologyNotFound,
        Refusal::TopologyConflict,
        Refusal::ArityNonUniform,
        Refusal::NoRoom,
        Refusal::WouldBreak,
        Refusal::SamePlace,
    ];

    /// The number that the library answers it by, never 0.
    pub fn number(self) -> u32 {
        match self {
            Refusal::Tables => 1,
            Refusal::Argument => 2,
            Refusal::TopologyMalformed => 3,
            Refusal::TopologyNotFound => 4,
            Refusal::TopologyConflict => 5,
            Refusal::ArityNonUniform => 6,
            Refusal::NoRoom => 7,
            Refusal::WouldBreak => 8,
            Refusal::SamePlace => 13,
            Refusal::Unknown(number) => number,
        }
    }

    /// The refusal with this number; none for 0 alone, which is "accepted".
    pub fn from_number(number: u32) -> Option<Refusal> {
        if number == 0 {
            return None;
        }
        let named = Refusal::ALL.iter().copied().find(|refusal| refusal.number() == number);
        Some(named.unwrap_or(Refusal::Unknown(number)))
    }
}

impl fmt::Display for Refusal {
    fn fmt(&self, f: &mut fmt::Formatter<'_>) -> fmt::Result {
        let why = match self {
            Refusal::Tables => "a table is unsound or over the limit, or working room is too small",
            Refusal::Argument => "more than 64 keys, or a number or a moved coordinate that is not finite",
            Refusal::TopologyMalformed => "too few vertices, the same vertex twice, neighbours, or a vertex without an edge",
            Refusal::TopologyNotFound => "an unknown vertex, face or arc",
            Refusal::TopologyConflict => "an arc that is needed is taken",
            Refusal::ArityNonUniform => "the faces differ in their number of vertices",
            Refusal::NoRoom => "not enough free rows, or no keys left",
            Refusal::WouldBreak => "the mesh would not be sound afterwards",
            Refusal::SamePlace => "two neighbouring corners of a face stand in one spot",
            Refusal::Unknown(number) => return write!(f, "refused with {number}, a number that this crate has no name for"),
        };
        write!(f, "{self:?} ({}): {why}", self.number())
    }
}

impl Error for Refusal {}

#[cfg(test)]
mod tests {
    use super::Refusal;
    use std::error::Error;

    #[test]
    fn every_number_but_0_is_a_refusal() {
        assert_eq!(Refusal::from_number(0), None);
        let named = [1, 2, 3, 4, 5, 6, 7, 8, 13];
        assert_eq!(Refusal::ALL.len(), named.len());
        for (refusal, number) in Refusal::ALL.iter().zip(named) {
            assert_eq!(refusal.number(), number);
            assert_eq!(Refusal::from_number(number), Some(*refusal));
        }
        for number in [9, 12, 14, 15, 1000, u32::MAX] {
            assert_eq!(Refusal::from_number(number), Some(Refusal::Unknown(number)));
            assert_eq!(Refusal::Unknown(number).number(), number);
        }
    }

    #[test]
    fn a_refusal_is_an_error_that_shows_its_number() {
        let shown = |number| -> String {
            let error: Box<dyn Error> = Box::new(Refusal::from_number(number).expect("a refusal"));
            error.to_string()
        };
        assert_eq!(shown(7), "NoRoom (7): not enough free rows, or no keys left");
        assert_eq!(shown(13), "SamePlace (13): two neighbouring corners of a face stand in one spot");
        assert_eq!(shown(99), "refused with 99, a number that this crate has no name for");
    }
}
