//! Why a call was refused, and where.

use std::fmt;

macro_rules! reasons {
    ($($variant:ident $name:literal $number:literal $when:literal;)*) => {
        /// Why a call was refused. The numbers and names are the library's.
        #[derive(Clone, Copy, Debug, PartialEq, Eq, Hash)]
        pub enum Reason {
            $(#[doc = concat!($name, ": ", $when, ".")] $variant = $number,)*
        }

        impl Reason {
            /// All of them, by number.
            pub const ALL: [Reason; 16] = [$(Reason::$variant,)*];

            /// The library's name, such as `BAD_CELL`.
            pub const fn name(self) -> &'static str {
                match self { $(Reason::$variant => $name,)* }
            }

            /// When it is given, and what its place is.
            pub const fn when(self) -> &'static str {
                match self { $(Reason::$variant => $when,)* }
            }
        }
    };
}

reasons! {
    BadFile "BAD_FILE" 1 "the program's file breaks a rule; no call of this crate gives it";
    BadSize "BAD_SIZE" 2 "a size is not 1 to 1,024, the cells are more than 1,048,576, or the grid has another length";
    BadTypes "BAD_TYPES" 3 "place 255: none, over 255, or lists of the wrong lengths (colour in one of two alone); else the lowest type whose kind or set is none";
    BadNumber "BAD_NUMBER" 4 "a voxel's size, centre or padding is not finite";
    BadAtlas "BAD_ATLAS" 5 "an atlas side is not 1 to 4,096, or a tile is over 4,095";
    NotACube "NOT_A_CUBE" 6 "place: the lowest type whose vertices do not surround the centre as a cube's do";
    BadFace "BAD_FACE" 7 "a number over 5 stands for a face; no typed face gives it";
    BadCell "BAD_CELL" 8 "place: the lowest cell whose code is no type";
    ShortRoom "SHORT_ROOM" 9 "the slots are under six a cell, or a cube's list under 24 vertices";
    BadCount "BAD_COUNT" 10 "the mesh is said to have more quads than its lists hold";
    BadLinks "BAD_LINKS" 11 "place: the lowest quad whose link and slot disagree; the count of quads if more slots are filled";
    BadTriangles "BAD_TRIANGLES" 12 "place: the lowest quad whose triangle words are not its own";
    BadEntry "BAD_ENTRY" 13 "place: the lowest log entry with a cell, change, type, neighbour, side or former type that is none, or past 16,777,216 entries";
    NoRoom "NO_ROOM" 14 "more quads are needed than the lists hold; an update tells its entry, and keeps those before it";
    WrongSet "WRONG_SET" 15 "the check: place is the lowest 6 · cell + face that is missing or should not be there";
    WrongVertex "WRONG_VERTEX" 16 "the check: place is the first quad with a float that differs in a bit";
}

impl Reason {
    /// 1 to 16.
    pub const fn number(self) -> u32 {
        self as u32
    }

    /// The reason of a number.
    pub fn from_number(number: u32) -> Option<Reason> {
        Reason::ALL.into_iter().find(|reason| reason.number() == number)
    }
}

/// A refusal: a reason, and the place that [`Reason`] says. A call that answers with one has changed nothing. A lent update that runs
/// out of room has, and answers with [`UpdateError::NoRoom`](crate::lent::UpdateError::NoRoom) instead.
#[derive(Clone, Copy, Debug, PartialEq, Eq, Hash)]
pub struct Refusal {
    /// Why.
    pub reason: Reason,
    /// Where: a type, cell, face, quad or entry as the reason says, else 0.
    pub place: u64,
}

impl fmt::Display for Refusal {
    fn fmt(&self, f: &mut fmt::Formatter) -> fmt::Result {
        write!(f, "{} at {} ({})", self.reason.name(), self.place, self.reason.when())
    }
}

impl std::error::Error for Refusal {}

#[cfg(test)]
mod tests {
    use super::*;

    #[test]
    fn numbers_run_from_1_to_16() {
        for (reason, number) in Reason::ALL.into_iter().zip(1..) {
            assert_eq!(reason.number(), number);
            assert_eq!(Reason::from_number(number), Some(reason));
        }
        assert_eq!(Reason::from_number(0), None);
        assert_eq!(Reason::from_number(17), None);
    }

    /// Document 01's table, and the header's enumerators.
    #[test]
    #[rustfmt::skip]
    fn names_go_with_numbers() {
        let names = [
            "BAD_FILE", "BAD_SIZE", "BAD_TYPES", "BAD_NUMBER", "BAD_ATLAS", "NOT_A_CUBE", "BAD_FACE", "BAD_CELL",
            "SHORT_ROOM", "BAD_COUNT", "BAD_LINKS", "BAD_TRIANGLES", "BAD_ENTRY", "NO_ROOM", "WRONG_SET", "WRONG_VERTEX",
        ];
        assert_eq!(Reason::ALL.map(Reason::name), names);
        let header = include_str!("../../../include/meshem.h");
        let enumerators = header.split_once("enum meshem_refusal {").and_then(|(_, rest)| rest.split_once("};")).unwrap().0;
        let due: Vec<String> = Reason::ALL.map(|reason| format!("MESHEM_{} = {}", reason.name(), reason.number())).into();
        let told: Vec<&str> = enumerators.split(',').map(str::trim).collect();
        assert_eq!(told[0], "MESHEM_DONE = 0");
        assert_eq!(told[1..], due);
    }

    #[test]
    fn a_refusal_says_its_name_and_place() {
        let told = Refusal { reason: Reason::BadCell, place: 7 }.to_string();
        assert!(told.starts_with("BAD_CELL at 7 ("), "{told}");
    }
}
