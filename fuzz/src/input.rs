//! A fuzzer's input, taken from the front. Past its end it goes on with zeros.

pub struct Input<'a> {
    left: &'a [u8],
}

impl<'a> Input<'a> {
    pub fn new(left: &'a [u8]) -> Input<'a> {
        Input { left }
    }

    pub fn is_over(&self) -> bool {
        self.left.is_empty()
    }

    pub fn byte(&mut self) -> u8 {
        match self.left.split_first() {
            Some((&first, rest)) => {
                self.left = rest;
                first
            }
            None => 0,
        }
    }

    pub fn half(&mut self) -> u16 {
        u16::from_le_bytes([self.byte(), self.byte()])
    }

    pub fn word(&mut self) -> u32 {
        u32::from_le_bytes(std::array::from_fn(|_| self.byte()))
    }

    pub fn long(&mut self) -> u64 {
        u64::from_le_bytes(std::array::from_fn(|_| self.byte()))
    }

    /// A number below the limit, from one byte.
    pub fn below(&mut self, limit: usize) -> usize {
        self.byte() as usize % limit
    }

    /// The next bytes, at most so many, as an input of their own.
    pub fn part(&mut self, most: usize) -> Input<'a> {
        let (part, rest) = self.left.split_at(most.min(self.left.len()));
        self.left = rest;
        Input::new(part)
    }

    pub fn rest(&mut self) -> &'a [u8] {
        std::mem::take(&mut self.left)
    }

    /// A length to lend where exactly so much is needed: that much, a little less, a little more, or anything up to 9,999.
    pub fn room(&mut self, needed: usize) -> usize {
        let (how, amount) = (self.byte(), self.half() as usize);
        match how % 8 {
            0 | 1 => needed,
            2 | 3 => needed.saturating_sub(1 + amount % 16),
            4 | 5 => needed + 1 + amount % 16,
            6 => needed * amount / 65535,
            _ => amount % 10_000,
        }
    }
}
