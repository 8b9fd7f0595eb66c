//! The records of a call or a tick: 80 bits each, most significant first.

#[derive(Clone, Default)]
pub struct Log {
    pub bytes: Vec<u8>,
}

impl Log {
    fn push(&mut self, kind: u128, cycle: u64, body: u128) {
        let record = kind << 78 | (cycle as u128) << 16 | body;
        self.bytes.extend(&record.to_be_bytes()[6..]);
    }

    pub fn pin(&mut self, cycle: u64, pin: u8, (enable, value): (u8, u8)) {
        self.push(0, cycle, (pin as u128) << 8 | (enable as u128) << 7 | (value as u128) << 6);
    }

    pub fn flags(&mut self, cycle: u64, raised: u8, lines: [bool; 5]) {
        let bits = (0..5).filter(|&i| lines[i]).map(|i| 0x80 >> i).sum::<u128>();
        self.push(1, cycle, (raised as u128) << 8 | bits);
    }

    pub fn trigger(&mut self, cycle: u64, trigger: u8, id: u8) {
        self.push(2, cycle, (trigger as u128) << 12 | (id as u128) << 4);
    }
}
