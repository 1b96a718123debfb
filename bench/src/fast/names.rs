//! The slots' names, prepared so that a text is compared with each of them in a few steps.

use super::text;
use reference::rows::MOST_SLOTS;

/// The longest name and a semicolon, in whole vectors.
pub const WIDTH: usize = 48;

/// A mask of any length starts somewhere in it.
static MASKS: [u8; 2 * WIDTH] = {
    let mut masks = [0; 2 * WIDTH];
    let mut place = 0;
    while place < WIDTH {
        masks[place] = 0xFF;
        place += 1;
    }
    masks
};

#[derive(Clone, Copy)]
struct Name {
    /// The name and a semicolon, then zeros.
    bytes: [u8; WIDTH],
    /// Ones where the name and its semicolon stand.
    mask: [u8; WIDTH],
    length: usize,
    /// The last eight bytes up to the semicolon, or as many as there are: what names differ in most often.
    last_at: usize,
    last: u64,
    last_mask: u64,
}

impl Name {
    /// No text starts with it.
    const NONE: Name = Name { bytes: [0; WIDTH], mask: [0; WIDTH], length: 0, last_at: 0, last: 1, last_mask: 0 };

    /// A KMCID as rows keep it: an identifier with zeros after it.
    fn new(kmcid: &[u8; 40]) -> Option<Self> {
        let length = text::find(kmcid, 0, 0);
        let mut name = Name { length, last_at: length.saturating_sub(7), ..Name::NONE };
        name.bytes[..40].copy_from_slice(kmcid);
        name.mask.copy_from_slice(&MASKS[WIDTH - length..][..WIDTH]);
        let mut wrong = 0;
        for (&byte, &mask) in name.bytes.iter().zip(&name.mask) {
            let ident = if text::is_ident_byte(byte) { 0xFF } else { 0 };
            wrong |= (mask & !ident) | (byte & !mask);
        }
        if wrong != 0 || !text::is_alphanumeric(name.bytes[0]) {
            return None;
        }
        (name.bytes[length], name.mask[length]) = (b';', 0xFF);
        name.last = text::word_at(&name.bytes, name.last_at);
        name.last_mask = text::word_at(&name.mask, name.last_at);
        Some(name)
    }

    /// Whether a text starts with the name and a semicolon.
    #[inline]
    fn begins(&self, text: &[u8; WIDTH]) -> bool {
        if text::word_at(text, self.last_at) & self.last_mask != self.last {
            return false;
        }
        let mut other = 0;
        for ((&byte, &own), &mask) in text.iter().zip(&self.bytes).zip(&self.mask) {
            other |= (byte ^ own) & mask;
        }
        other == 0
    }
}

/// The names of the slots by their places.
pub struct Names {
    names: [Name; MOST_SLOTS],
    count: usize,
}

impl Names {
    pub const NONE: Names = Names { names: [Name::NONE; MOST_SLOTS], count: 0 };

    /// Takes the name of the next row, where it is in form and new.
    pub fn push(&mut self, kmcid: &[u8; 40]) -> Option<()> {
        let name = Name::new(kmcid).filter(|name| self.place(&name.bytes).is_none())?;
        *self.names.get_mut(self.count)? = name;
        self.count += 1;
        Some(())
    }

    /// The next row is free.
    pub fn skip(&mut self) {
        self.count += 1;
    }

    /// The place of the name that a text starts with, and its length.
    #[inline]
    pub fn place(&self, text: &[u8; WIDTH]) -> Option<(usize, usize)> {
        let names = self.names.get(..self.count)?;
        names.iter().position(|name| name.begins(text)).map(|place| (place, names[place].length))
    }

    /// The place of a name.
    pub fn find(&self, name: &[u8]) -> Option<usize> {
        let mut text = [0; WIDTH];
        text.get_mut(..name.len())?.copy_from_slice(name);
        *text.get_mut(name.len())? = b';';
        self.place(&text).filter(|&(_, length)| length == name.len()).map(|(place, _)| place)
    }
}
