//! The text of a trace, line by line. Each line is written straight to the end of the text, in fields of fixed size.

use std::mem::MaybeUninit;

/// The digits of each number below 10,000, the first one in the lowest byte, and 0 for bytes that it has no digit for.
static DIGITS: [u32; 10_000] = digits();

const fn digits() -> [u32; 10_000] {
    let mut table = [0; 10_000];
    let mut number = 0;
    while number < 10_000 {
        let mut rest = number as u32;
        loop {
            table[number] = table[number] << 8 | (b'0' as u32 + rest % 10);
            rest /= 10;
            if rest == 0 {
                break;
            }
        }
        number += 1;
    }
    table
}

/// The four digits of each number below 10,000.
static FOUR_DIGITS: [[u8; 4]; 10_000] = four_digits();

const fn four_digits() -> [[u8; 4]; 10_000] {
    let mut table = [[0; 4]; 10_000];
    let mut number = 0;
    while number < 10_000 {
        let [a, b, c, d] = [number / 1000, number / 100 % 10, number / 10 % 10, number % 10];
        table[number] = [b'0' + a as u8, b'0' + b as u8, b'0' + c as u8, b'0' + d as u8];
        number += 1;
    }
    table
}

/// The bytes of a field. A word is copied as a whole field; what follows the word is overwritten by the next one.
const FIELD: usize = 32;

/// A short text in a field.
#[derive(Clone, Copy)]
pub struct Word {
    bytes: [u8; FIELD],
    length: u8,
}

/// The word of a text of at most 32 bytes.
pub const fn word(text: &str) -> Word {
    let (from, mut bytes, mut place) = (text.as_bytes(), [0; FIELD], 0);
    while place < from.len() {
        bytes[place] = from[place];
        place += 1;
    }
    Word { bytes, length: from.len() as u8 }
}

/// The bytes that are free before a line is begun: a line has fewer than 256, and its last field may reach further.
const ROOM: usize = 256 + FIELD;

/// A line while it is written. Its place is a byte, so every field lies within the room and no write needs a check.
///
/// Each function returns the line with something added. It is a value, so that its place stays in a register.
pub struct Line<'a> {
    room: &'a mut [MaybeUninit<u8>; ROOM],
    place: u8,
}

impl<'a> Line<'a> {
    /// A word.
    #[inline(always)]
    pub fn word(self, word: &Word) -> Line<'a> {
        let place = self.place as usize;
        self.room[place..place + FIELD].write_copy_of_slice(&word.bytes);
        Line { place: self.place + word.length, ..self }
    }

    /// A text whose length is known when this program is built.
    #[inline(always)]
    pub fn text<const LENGTH: usize>(self, text: &[u8; LENGTH]) -> Line<'a> {
        const { assert!(LENGTH <= FIELD) };
        let place = self.place as usize;
        self.room[place..place + LENGTH].write_copy_of_slice(text);
        Line { place: self.place + LENGTH as u8, ..self }
    }

    /// A number below 10,000.
    #[inline(always)]
    fn small_number(self, number: u64) -> Line<'a> {
        let digits = DIGITS[number as usize];
        let place = self.place as usize;
        self.room[place..place + 4].write_copy_of_slice(&digits.to_le_bytes());
        // each digit has a bit set, so the highest bit says how many bytes have digits
        let length = (digits | 1).ilog2() / 8 + 1;
        Line { place: self.place + length as u8, ..self }
    }

    /// A number.
    #[inline(always)]
    pub fn number(self, number: u64) -> Line<'a> {
        if number < 10_000 {
            self.small_number(number)
        } else if number < 100_000_000 {
            self.small_number(number / 10_000).text(&FOUR_DIGITS[(number % 10_000) as usize])
        } else {
            self.large_number(number)
        }
    }

    #[cold]
    fn large_number(self, number: u64) -> Line<'a> {
        let rest = number % 100_000_000;
        let line = self.number(number / 100_000_000);
        line.text(&FOUR_DIGITS[(rest / 10_000) as usize]).text(&FOUR_DIGITS[(rest % 10_000) as usize])
    }
}

/// A text that grows by lines.
#[derive(Clone, Default)]
pub struct Text {
    pub bytes: Vec<u8>,
}

impl Text {
    /// Adds the line that `write` writes, and a line feed.
    #[inline(always)]
    pub fn add_line(&mut self, write: impl FnOnce(Line) -> Line) {
        if self.bytes.capacity() - self.bytes.len() < ROOM {
            self.grow();
        }
        let room = self.bytes.spare_capacity_mut().first_chunk_mut().expect("the text was grown");
        let line = write(Line { room, place: 0 }).text(b"\n");
        let length = line.place as usize;
        // SAFETY: the capacity holds the line's room, and the line has written every byte before its place.
        unsafe { self.bytes.set_len(self.bytes.len() + length) };
    }

    #[cold]
    fn grow(&mut self) {
        self.bytes.reserve(1 << 20);
    }
}
