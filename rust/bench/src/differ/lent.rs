//! Bytes lent to the archive, at any alignment, with guards before and behind.

const GUARD: usize = 64;
const GUARD_BYTE: u8 = 0xC3;

#[derive(Default)]
pub struct Lent {
    memory: Vec<u8>,
    start: usize,
    length: usize,
}

impl Lent {
    /// Lends these bytes in the place of those before.
    pub fn lend(&mut self, bytes: &[u8], shift: usize) {
        self.start = GUARD + shift;
        self.length = bytes.len();
        self.memory.clear();
        self.memory.resize(self.start, GUARD_BYTE);
        self.memory.extend_from_slice(bytes);
        self.memory.resize(self.start + self.length + GUARD, GUARD_BYTE);
    }

    pub fn bytes(&self) -> &[u8] {
        &self.memory[self.start..self.start + self.length]
    }

    pub fn bytes_mut(&mut self) -> &mut [u8] {
        &mut self.memory[self.start..self.start + self.length]
    }

    pub fn guards_stand(&self) -> bool {
        let behind = self.start + self.length;
        let guards = self.memory[..self.start].iter().chain(&self.memory[behind..]);
        guards.copied().all(|byte| byte == GUARD_BYTE)
    }
}

#[cfg(test)]
impl Lent {
    /// Writes a byte behind the bytes.
    pub fn overrun(&mut self) {
        self.memory[self.start + self.length] = 0;
    }
}
