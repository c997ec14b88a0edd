//! An interpreter of eight instructions, in the place of a processor. An instruction has eight bytes: its number, two registers, a byte that
//! is not used, and a word.

/// Where the guest finds its RAM, and the windows of its devices.
pub const RAM: u32 = 0x4000_0000;
pub const WINDOWS: u32 = 0x1000_0000;
pub const WINDOW: u32 = 0x1000;

pub const HALT: u8 = 0;
pub const SET: u8 = 1;
pub const ADD: u8 = 2;
pub const LOAD: u8 = 3;
pub const STORE: u8 = 4;
pub const IF_EQUAL: u8 = 5;
pub const IF_OTHER: u8 = 6;
pub const WAIT: u8 = 7;

/// Why the guest came out.
pub enum Exit {
    /// It reads this address, which is not RAM, into a register.
    Read(u32, usize),
    /// It writes a value to this address, which is not RAM.
    Write(u32, u32),
    /// It waits for an interrupt, or its time is over.
    Wait,
    /// It has ended, by itself or by an instruction that there is not.
    Halt,
}

/// What of the guest is in neither RAM nor devices: its registers and the address of its next instruction.
#[derive(Clone, Copy, Default)]
pub struct Cpu {
    pub registers: [u32; 8],
    pub next: u32,
}

impl Cpu {
    pub fn to_bytes(self) -> Vec<u8> {
        self.registers.into_iter().chain([self.next]).flat_map(u32::to_le_bytes).collect()
    }

    pub fn from_bytes(bytes: &[u8; 36]) -> Cpu {
        let word = |place| word_at(bytes, 4 * place).unwrap_or(0);
        Cpu { registers: std::array::from_fn(word), next: word(8) }
    }

    /// Runs the guest until it comes out, and notes the pages that it wrote.
    pub fn run(&mut self, ram: &mut [u8], written: &mut Vec<u32>) -> Exit {
        for _ in 0..10_000 {
            let place = self.next as usize;
            let Some(&[number, a, b, _, ..]) = ram.get(place..).and_then(|left| left.first_chunk::<8>()) else {
                return Exit::Halt;
            };
            let word = word_at(ram, place + 4).unwrap_or(0);
            let (a, b) = (usize::from(a % 8), usize::from(b % 8));
            let address = self.registers[b].wrapping_add(word);
            self.next += 8;
            match number {
                SET => self.registers[a] = word,
                ADD => self.registers[a] = self.registers[a].wrapping_add(word),
                LOAD => match word_at(ram, address.wrapping_sub(RAM) as usize) {
                    Some(value) => self.registers[a] = value,
                    None => return Exit::Read(address, a),
                },
                STORE => {
                    let offset = address.wrapping_sub(RAM) as usize;
                    match ram.get_mut(offset..).and_then(|left| left.first_chunk_mut::<4>()) {
                        Some(bytes) => *bytes = self.registers[a].to_le_bytes(),
                        None => return Exit::Write(address, self.registers[a]),
                    }
                    written.extend([(offset / 4096) as u32, ((offset + 3) / 4096) as u32]);
                }
                IF_EQUAL if self.registers[a] == self.registers[b] => self.next = word,
                IF_OTHER if self.registers[a] != self.registers[b] => self.next = word,
                IF_EQUAL | IF_OTHER => {}
                WAIT => return Exit::Wait,
                _ => return Exit::Halt,
            }
        }
        Exit::Wait
    }
}

fn word_at(ram: &[u8], place: usize) -> Option<u32> {
    ram.get(place..)?.first_chunk().map(|bytes| u32::from_le_bytes(*bytes))
}
