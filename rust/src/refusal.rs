//! Why a call was refused.

use std::error::Error;
use std::fmt;

/// Why a call was refused: the number of its first fault, never 0. It displays as a sentence.
///
/// ```
/// let refusal = ups::Net::new(1, 2, &[]).unwrap_err();
/// assert_eq!(refusal, ups::Refusal::SIZE);
/// assert_eq!(refusal.number(), 1);
/// assert_eq!(refusal.to_string(), "a side of the net is below 2 or above 1,025");
/// ```
#[derive(Clone, Copy, PartialEq, Eq, Hash)]
pub struct Refusal(u32);

impl Refusal {
    /// 1: a side is below 2 or above 1,025, as in a net of 1 by 2.
    pub const SIZE: Refusal = Refusal(1);
    /// 2: there are too few numbers or bytes, as 35 numbers for a net of 2 by 2.
    pub const SHORT: Refusal = Refusal(2);
    /// 3: a number lies outside its range, as an x of 16,777,217.
    pub const RANGE: Refusal = Refusal(3);
    /// 4: there are too many steps, as 7, or 6 for a net of 18 by 2.
    pub const DEPTH: Refusal = Refusal(4);
    /// 5: an output or scratch is too short, as 155 bytes for the file of a net of 2 by 2.
    pub const ROOM: Refusal = Refusal(5);
    /// 6: there is no such vertex, triangle or place, as a p of 1,025 in a net 2 wide.
    pub const PLACE: Refusal = Refusal(6);
    /// 7: the file ends where a word is due, as an empty file.
    pub const MISSING_WORD: Refusal = Refusal(7);
    /// 8: another word was due, as in a file that begins with its height.
    pub const WRONG_WORD: Refusal = Refusal(8);
    /// 9: bytes follow the end word, as the 157th of a file of a net of 2 by 2.
    pub const TRAILING: Refusal = Refusal(9);
    /// 10: a side is even in split or clean, as in a net of 4 by 3.
    pub const EVEN: Refusal = Refusal(10);
    /// 11: a coarse or a merged number leaves the net range, as where a coarse net is 16,777,216
    /// throughout and a detail is 1.
    pub const RESULT: Refusal = Refusal(11);
    /// 12: the threshold is too great, as 33,554,433.
    pub const THRESHOLD: Refusal = Refusal(12);
    /// 13: a byte of the outline is above 1, as 2.
    pub const OUTLINE_BYTE: Refusal = Refusal(13);
    /// 14: the outline has no present triangle, or edges do not connect those that it has, as two
    /// that meet at a vertex alone.
    pub const NOT_CONNECTED: Refusal = Refusal(14);
    /// 15: no present triangle has the place, or the triangle is missing, as any where all bytes of
    /// the outline are 0.
    pub const OFF_DOOR: Refusal = Refusal(15);
    /// 16: a control value of the net through given points leaves the net range, as where an x of p
    /// is 16,777,216 and that of t1 is 1.
    pub const CONTROL_RANGE: Refusal = Refusal(16);

    /// What an answer of a function of [`raw`](crate::raw) says: 0 is accepted.
    #[inline]
    pub const fn check(number: u32) -> Result<(), Refusal> {
        match number {
            0 => Ok(()),
            _ => Err(Refusal(number)),
        }
    }

    /// The number that the library answered.
    pub const fn number(self) -> u32 {
        self.0
    }
}

impl fmt::Display for Refusal {
    fn fmt(&self, to: &mut fmt::Formatter) -> fmt::Result {
        to.pad(match *self {
            Refusal::SIZE => "a side of the net is below 2 or above 1,025",
            Refusal::SHORT => {
                "the net, the details, the outline or the given points are shorter than the size \
                 needs"
            }
            Refusal::RANGE => "a number is beyond its range",
            Refusal::DEPTH => "more than 6 steps, or a refined side above 1,025",
            Refusal::ROOM => "a lent output or scratch is too short",
            Refusal::PLACE => "the net has no such vertex, triangle or place",
            Refusal::MISSING_WORD => "the file ends where a word is due",
            Refusal::WRONG_WORD => "the file has another word than the one that is due",
            Refusal::TRAILING => "the file has bytes after its end word",
            Refusal::EVEN => "split and clean need odd sides",
            Refusal::RESULT => "a number of the result is beyond the net range",
            Refusal::THRESHOLD => "the threshold is above 33,554,432",
            Refusal::OUTLINE_BYTE => "a byte of the outline is neither 0 nor 1",
            Refusal::NOT_CONNECTED => "the present triangles are none, or not connected by edges",
            Refusal::OFF_DOOR => "the place or the triangle is off the door",
            Refusal::CONTROL_RANGE => {
                "a control value of the net through the given points is beyond the net range"
            }
            _ => "not a refusal of this library",
        })
    }
}

// With the sentence, since a `main` that hands an error back prints it so.
impl fmt::Debug for Refusal {
    fn fmt(&self, to: &mut fmt::Formatter) -> fmt::Result {
        write!(to, "refusal {}, {self}", self.0)
    }
}

impl Error for Refusal {}
