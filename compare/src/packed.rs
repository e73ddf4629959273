//! A record still packed, with the questions that need no year.

use crate::bits::first_word;
use crate::layout::{self, Layout, MOST_HEAD};
use crate::lists::{Deficits, Entries, Findings, List, OneReduction, TwoReductions};

/// A record that questions 1 to 5 let by.
pub struct Packed<'a> {
    bytes: &'a [u8],
    pub layout: Layout,
    /// The numbers before the lists, then zeros.
    pub head: [u64; MOST_HEAD],
}

/// A refusal's number and the length of the record, 0 if that is not known.
pub struct Refusal {
    pub number: u64,
    pub length: usize,
}

impl<'a> Packed<'a> {
    /// Puts questions 1 to 5 to the bytes.
    pub fn parse(bytes: &'a [u8]) -> Result<Self, Refusal> {
        let packed = Packed::by_counts(bytes).map_err(|number| Refusal { number, length: 0 })?;
        match packed.ask() {
            Ok(()) => Ok(packed),
            Err(number) => Err(Refusal {
                number,
                length: packed.layout.bytes(),
            }),
        }
    }

    /// Questions 1 and 2.
    fn by_counts(bytes: &'a [u8]) -> Result<Self, u64> {
        let kind = bytes.first().map_or(0, |byte| byte >> 4);
        let head = layout::head(kind.into()).ok_or(1_u64)?;
        if bytes.len() < head.bits.div_ceil(8) {
            return Err(2);
        }
        let word = first_word(bytes);
        let layout = Layout::of_word(head, word);
        if bytes.len() < layout.bytes() {
            return Err(2);
        }
        Ok(Packed {
            bytes,
            layout,
            head: head.unpack(word),
        })
    }

    /// Questions 3 to 5.
    fn ask(&self) -> Result<(), u64> {
        let lists = match self.layout.head.has_entries() {
            true => Findings::new(self.deficits(), self.entries()),
            false => Findings::default(),
        };
        if !(self.layout.head.permits(&self.head) && lists.permitted) {
            Err(3)
        } else if !self.filling_is_zero() {
            Err(4)
        } else if !lists.ids_rise {
            Err(5)
        } else {
            Ok(())
        }
    }

    /// Each deficit: a seller and its kilowatts.
    pub fn deficits(&self) -> impl Iterator<Item = [u64; 2]> + 'a {
        let start = self.layout.deficits_start();
        Deficits::unpack(self.bytes, start, self.layout.deficits)
    }

    /// Each entry: a registration and its reduction, or its on-peak and its off-peak one.
    pub fn entries(
        &self,
    ) -> Entries<impl Iterator<Item = [u64; 2]> + 'a, impl Iterator<Item = [u64; 3]> + 'a> {
        let (start, count) = (self.layout.entries_start(), self.layout.entries);
        match self.layout.head.has_two_reductions() {
            true => Entries::Two(TwoReductions::unpack(self.bytes, start, count)),
            false => Entries::One(OneReduction::unpack(self.bytes, start, count)),
        }
    }

    fn filling_is_zero(&self) -> bool {
        let length = self.layout.bytes();
        let filling = 8 * length - self.layout.bits();
        self.bytes[length - 1] & ((1 << filling) - 1) == 0
    }
}
