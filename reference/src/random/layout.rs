//! Extension blocks laid out against the header keystream, which comes in blocks of 16 bytes from
//! the extension block's first byte on: listed elements that begin and end around a multiple of 16,
//! with gaps of every kind between them.

use super::dice::Dice;
use crate::aes::BLOCK;
use crate::elements::IdSet;
use crate::header;

/// Ids around powers of two and at the ends of their range.
const EDGE_IDS: [u8; 18] =
    [1, 2, 7, 8, 13, 14, 15, 16, 31, 32, 63, 64, 65, 127, 128, 192, 254, 255];

/// A block that grows up to its length. What would pass it is cut down to what is left.
struct Layout<'a> {
    dice: &'a mut Dice,
    ids: &'a IdSet,
    is_one_byte: bool,
    block: Vec<u8>,
    length: usize,
}

/// A block of this length, at least 1, that can be read.
pub fn block(dice: &mut Dice, tag: u16, ids: &IdSet, length: usize) -> Vec<u8> {
    let mut layout = Layout::new(dice, tag, ids, length);
    if layout.is_one_byte && layout.dice.one_in(5) {
        layout.fill_and_cut_short();
    } else {
        layout.fill();
    }
    layout.block
}

/// The same, at least 2 long, with one last element that runs past it or has no place for its
/// length.
pub fn broken_block(dice: &mut Dice, tag: u16, ids: &IdSet, length: usize) -> Vec<u8> {
    let room = dice.size(1, 2);
    let mut layout = Layout::new(dice, tag, ids, length - room);
    layout.fill();
    let is_listed = layout.dice.one_in(2);
    let (id, more) = (layout.id(is_listed), layout.dice.between(1, 15) as u8);
    let last = if layout.is_one_byte { [id << 4 | more, more] } else { [id, more] };
    layout.block.extend(&last[..room]);
    layout.block
}

impl<'a> Layout<'a> {
    fn new(dice: &'a mut Dice, tag: u16, ids: &'a IdSet, length: usize) -> Layout<'a> {
        Layout { dice, ids, is_one_byte: tag == header::ONE_BYTE, block: Vec::new(), length }
    }

    /// Bytes still to be laid.
    fn room(&self) -> usize {
        self.length - self.block.len()
    }

    /// Bytes of an element before its data.
    fn head(&self) -> usize {
        if self.is_one_byte {
            1
        } else {
            2
        }
    }

    /// The nearest number of data bytes that an element can have.
    fn possible(&self, length: usize) -> usize {
        if self.is_one_byte {
            length.clamp(1, 16)
        } else {
            length.min(255)
        }
    }

    /// An id that is in the list, or one that is not; 1 where there is none.
    fn id(&mut self, is_listed: bool) -> u8 {
        let most = if self.is_one_byte { 14 } else { 255 };
        let fits = |id: &u8| *id <= most && self.ids.contains(id) == is_listed;
        let all: Vec<u8> = (1..=255).filter(fits).collect();
        let edges: Vec<u8> = EDGE_IDS.into_iter().filter(fits).collect();
        if all.is_empty() {
            1
        } else if edges.is_empty() || self.dice.one_in(2) {
            self.dice.pick(&all)
        } else {
            self.dice.pick(&edges)
        }
    }

    fn padding(&mut self, length: usize) {
        let length = length.min(self.room());
        self.block.extend(vec![0; length]);
    }

    /// An element of this many data bytes, or of as many as there can be. The shortest one takes
    /// two bytes in both forms; padding where these are not left.
    fn element(&mut self, is_listed: bool, length: usize) {
        if self.room() < 2 {
            return self.padding(1);
        }
        let id = self.id(is_listed);
        let length = self.possible(length).min(self.room() - self.head());
        if self.is_one_byte {
            self.block.push(id << 4 | (length - 1) as u8);
        } else {
            self.block.extend([id, length as u8]);
        }
        self.block.extend(self.dice.bytes(length));
    }

    /// Exactly this many bytes of unlisted elements and padding, or of only one of the two.
    fn gap(&mut self, length: usize) {
        let end = self.length.min(self.block.len() + length);
        // Of six pieces, so many are padding.
        let padding = self.dice.pick(&[0, 3, 6]);
        while self.block.len() < end {
            let left = end - self.block.len();
            if left == 1 || self.dice.below(6) < padding {
                let length = self.dice.size(1, left.min(20));
                self.padding(length);
            } else {
                let most = self.head() + self.possible(usize::MAX);
                let length = self.dice.size(2, left.min(most)) - self.head();
                self.element(false, length);
            }
        }
    }

    fn fill(&mut self) {
        match self.dice.below(10) {
            0 => self.gap(self.length),
            1 => self.last_alone(),
            2 => self.fill_with(Layout::neighbours),
            _ => self.fill_with(Layout::stretch),
        }
    }

    fn fill_with(&mut self, lay: fn(&mut Self)) {
        while self.room() > 0 {
            lay(self);
        }
    }

    /// Id 15, or id 0 with a length, ends the reading; what looks like listed elements behind it is
    /// none.
    fn fill_and_cut_short(&mut self) {
        let whole = self.length;
        self.length = self.dice.size(0, whole - 1);
        self.fill();
        self.length = whole;
        let end = if self.dice.one_in(2) { 0xf0 | self.dice.byte() } else { self.dice.byte() & 15 };
        self.block.push(end.max(1));
        while self.room() > 0 {
            let length = self.dice.size(1, 20);
            self.element(true, length);
        }
    }

    /// Only the last element is listed, and it ends with the block.
    fn last_alone(&mut self) {
        let length = self.dice.size(1, 40);
        let length = self.possible(length);
        self.gap(self.length.saturating_sub(self.head() + length));
        self.element(true, length);
    }

    fn stretch(&mut self) {
        match self.dice.below(7) {
            0 | 1 => self.edge(),
            2 | 3 => self.behind_a_gap(),
            4 => self.in_a_row(),
            5 => self.neighbours(),
            _ => self.padded(),
        }
    }

    /// A listed element whose data begins or ends at a multiple of 16, one before it or one past it.
    fn edge(&mut self) {
        let multiple = BLOCK * (self.block.len() / BLOCK + self.dice.size(1, 3));
        let place = multiple + self.dice.size(0, 2) - 1;
        let length = self.dice.pick(&[1, 2, 3, 14, 15, 16, 17, 31, 32, 33, 48]);
        let length = self.possible(length);
        let earliest = self.block.len() + self.head();
        let (begin, length) = if self.dice.one_in(2) {
            (place, length)
        } else {
            let begin = place.saturating_sub(length).max(earliest);
            (begin, place.saturating_sub(begin))
        };
        self.gap(begin.saturating_sub(earliest));
        self.element(true, length);
    }

    /// Two listed elements; what is between them is counted up to the second's first byte or up to
    /// its data.
    fn behind_a_gap(&mut self) {
        let length = self.dice.size(1, 16);
        self.element(true, length);
        let far = self.dice.size(200, 700);
        let gap = self.dice.pick(&[0, 1, 15, 16, 17, 31, 32, 33, far]);
        let counted = self.dice.pick(&[0, self.head()]);
        self.gap(gap.saturating_sub(counted));
        let length = self.dice.size(1, 40);
        self.element(true, length);
    }

    /// Listed elements right after each other, long ones and empty ones.
    fn in_a_row(&mut self) {
        for _ in 0..self.dice.between(2, 5) {
            let any = self.dice.size(0, 255);
            let length = self.dice.pick(&[0, 0, 0, 1, 15, 16, 17, 32, 33, 49, 255, any]);
            self.element(true, length);
        }
    }

    /// Listed and unlisted elements right after each other, many small ones or some of any size.
    fn neighbours(&mut self) {
        let (most, length) = self.dice.pick(&[(40, 1), (20, 2), (8, 20)]);
        let unlisted = self.dice.between(2, 6);
        for _ in 0..self.dice.between(2, most) {
            let is_listed = !self.dice.one_in(unlisted);
            let length = self.dice.size(0, length);
            self.element(is_listed, length);
        }
    }

    /// Padding around an element.
    fn padded(&mut self) {
        let (before, behind) = (self.dice.size(1, 20), self.dice.size(1, 20));
        let (is_listed, length) = (!self.dice.one_in(4), self.dice.size(0, 20));
        self.padding(before);
        self.element(is_listed, length);
        self.padding(behind);
    }
}
