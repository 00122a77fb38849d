//! The rows of bench/machine.txt by an interpreter in plain safe Rust, to compare with: `rustc -O --edition 2024 plain.rs`.
//! It has the instructions of the machine but atomic operations, one helper, and the same tests of each access.

use std::time::{Duration, Instant};

/// A row is the best of so many repetitions, since a busy machine can only make one slower.
const REPETITIONS: u32 = 100;

/// How often each repetition runs a loop.
const LOOP_RUNS: u32 = 10;

/// How often each repetition runs a short program.
const SHORT_RUNS: u32 = 10_000;

/// How many instructions a run may count.
const BUDGET: u32 = 65_536;

const PACKET_START: u64 = 0x1000_0000;
const STACK_START: u64 = 0x2000_0000;
const CONTEXT_START: u64 = 0x3000_0000;
const VALUES_START: u64 = 0x4000_0000;
const VALUES_ROOM: u64 = 0x0100_0000;
const REFERENCES: u64 = 0x7000_0000;

const MARGIN: usize = 256;
const FRAME_SIZE: usize = 512;
const FRAME_DISTANCE: usize = 0x1000;
const FRAMES: usize = 8;

#[derive(Clone, Copy)]
struct Insn {
    opcode: u8,
    target: u8,
    source: u8,
    offset: i16,
    imm: i32,
    half: bool,
}

/// What an instruction leads to.
enum Flow {
    Next(i64),
    End,
    Fault,
}

/// How a run ended, and how many instructions were counted.
enum Halt {
    Ended(u32),
    Faulted(u32),
    Spent,
}

impl Halt {
    fn used(&self) -> u32 {
        match *self {
            Halt::Ended(used) | Halt::Faulted(used) => used,
            Halt::Spent => BUDGET,
        }
    }
}

struct Caller {
    call: i64,
    kept: [u64; 5],
}

struct Env {
    ifindex: u32,
    queue: u32,
}

struct Packet {
    buffer: Vec<u8>,
    start: usize,
    end: usize,
}

/// An array that programs may change, or not.
struct Map {
    key_size: usize,
    value_size: usize,
    stride: usize,
    values: Vec<u8>,
    taken: Vec<bool>,
    shared: bool,
}

impl Map {
    /// Whether so many bytes from an offset on are in the value of a taken slot.
    #[inline]
    fn has(&self, offset: usize, size: usize) -> bool {
        let taken = self.taken.get(offset / self.stride);
        taken == Some(&true) && offset % self.stride + size <= self.value_size
    }
}

struct Machine {
    registers: [u64; 11],
    callers: Vec<Caller>,
    stack: Vec<u8>,
    maps: Vec<Map>,
    packet: Packet,
    env: Env,
}

impl Packet {
    fn fill(&mut self, bytes: &[u8]) {
        self.buffer.clear();
        self.buffer.extend_from_slice(&[0; MARGIN]);
        self.buffer.extend_from_slice(bytes);
        self.buffer.extend_from_slice(&[0; MARGIN]);
        self.start = MARGIN;
        self.end = MARGIN + bytes.len();
    }

    /// The place in the buffer of an address from which so many bytes are in the packet.
    #[inline]
    fn place_of(&self, address: u64, size: usize) -> Option<usize> {
        let start = PACKET_START + self.start as u64;
        let end = PACKET_START + self.end as u64;
        let inside = start <= address && address <= end - size as u64;
        inside.then(|| (address - PACKET_START) as usize)
    }
}

/// The number of `SIZE` bytes at a place, little endian.
#[inline]
fn number<const SIZE: usize>(bytes: &[u8], place: usize) -> Option<u64> {
    let mut wide = [0; 8];
    wide[..SIZE].copy_from_slice(bytes.get(place..place + SIZE)?);
    Some(u64::from_le_bytes(wide))
}

/// Writes the low `SIZE` bytes of a value at a place.
#[inline]
fn put_number<const SIZE: usize>(bytes: &mut [u8], place: usize, value: u64) -> Option<()> {
    let low = value.to_le_bytes();
    bytes
        .get_mut(place..place + SIZE)?
        .copy_from_slice(&low[..SIZE]);
    Some(())
}

impl Machine {
    fn new() -> Self {
        Machine {
            registers: [0; 11],
            callers: Vec::with_capacity(FRAMES),
            stack: vec![0; FRAME_DISTANCE * (FRAMES - 1) + FRAME_SIZE],
            maps: vec![Map {
                key_size: 4,
                value_size: 8,
                stride: 8,
                values: vec![0; 64],
                taken: vec![true; 8],
                shared: false,
            }],
            packet: Packet {
                buffer: Vec::with_capacity(0x4000),
                start: 0,
                end: 0,
            },
            env: Env {
                ifindex: 1,
                queue: 0,
            },
        }
    }

    /// The place on the stack of an address from which so many bytes are in one frame.
    #[inline]
    fn stack_place(&self, address: u64, size: usize) -> Option<usize> {
        let place = address.checked_sub(STACK_START)?;
        let inside = place / FRAME_DISTANCE as u64 <= self.callers.len() as u64
            && place % FRAME_DISTANCE as u64 <= (FRAME_SIZE - size) as u64;
        inside.then_some(place as usize)
    }

    fn context(&self) -> [u8; 24] {
        let start = (PACKET_START + self.packet.start as u64) as u32;
        let end = (PACKET_START + self.packet.end as u64) as u32;
        let words = [start, end, start, self.env.ifindex, self.env.queue, 0];
        let mut bytes = [0; 24];
        for (place, word) in bytes.chunks_exact_mut(4).zip(words) {
            place.copy_from_slice(&word.to_le_bytes());
        }
        bytes
    }

    #[inline]
    fn load<const SIZE: usize>(&self, address: u64) -> Option<u64> {
        if let Some(place) = self.packet.place_of(address, SIZE) {
            return number::<SIZE>(&self.packet.buffer, place);
        }
        if let Some(place) = self.stack_place(address, SIZE) {
            return number::<SIZE>(&self.stack, place);
        }
        if (CONTEXT_START..=CONTEXT_START + 24 - SIZE as u64).contains(&address) {
            return number::<SIZE>(&self.context(), (address - CONTEXT_START) as usize);
        }
        let offset = address.checked_sub(VALUES_START)?;
        let map = self.maps.get((offset / VALUES_ROOM) as usize)?;
        let place = (offset % VALUES_ROOM) as usize;
        map.has(place, SIZE)
            .then(|| number::<SIZE>(&map.values, place))?
    }

    #[inline]
    fn store<const SIZE: usize>(&mut self, address: u64, value: u64) -> Option<()> {
        if let Some(place) = self.packet.place_of(address, SIZE) {
            return put_number::<SIZE>(&mut self.packet.buffer, place, value);
        }
        if let Some(place) = self.stack_place(address, SIZE) {
            return put_number::<SIZE>(&mut self.stack, place, value);
        }
        let offset = address.checked_sub(VALUES_START)?;
        let map = self.maps.get_mut((offset / VALUES_ROOM) as usize)?;
        let place = (offset % VALUES_ROOM) as usize;
        if map.shared || !map.has(place, SIZE) {
            return None;
        }
        put_number::<SIZE>(&mut map.values, place, value)
    }

    #[inline]
    fn call(&mut self, at: i64, distance: i32) -> Flow {
        if self.callers.len() == FRAMES - 1 {
            return Flow::Fault;
        }
        let [.., r6, r7, r8, r9, r10] = self.registers;
        self.callers.push(Caller {
            call: at,
            kept: [r6, r7, r8, r9, r10],
        });
        let start = FRAME_DISTANCE * self.callers.len();
        self.stack[start..start + FRAME_SIZE].fill(0);
        self.registers[10] = STACK_START + (start + FRAME_SIZE) as u64;
        Flow::Next(at + 1 + i64::from(distance))
    }

    #[inline]
    fn exit(&mut self) -> Flow {
        let Some(caller) = self.callers.pop() else {
            return Flow::End;
        };
        self.registers[6..].copy_from_slice(&caller.kept);
        Flow::Next(caller.call + 1)
    }

    /// The bytes from an address on.
    fn bytes<'a>(&'a self, context: &'a [u8], address: u64, size: usize) -> Option<&'a [u8]> {
        if let Some(place) = self.packet.place_of(address, size) {
            return self.packet.buffer.get(place..place + size);
        }
        if let Some(place) = self.stack_place(address, size) {
            return self.stack.get(place..place + size);
        }
        if let Some(place) = address.checked_sub(VALUES_START) {
            let map = self.maps.get((place / VALUES_ROOM) as usize)?;
            let place = (place % VALUES_ROOM) as usize;
            return map
                .has(place, size)
                .then(|| &map.values[place..place + size]);
        }
        let place = address.checked_sub(CONTEXT_START)? as usize;
        context.get(place..place + size)
    }

    /// map_lookup_elem for an array.
    fn look_up(&mut self) -> Option<u64> {
        let number = self.registers[1].checked_sub(REFERENCES)?;
        let map = self.maps.get(usize::try_from(number).ok()?)?;
        let context = self.context();
        let key = self.bytes(&context, self.registers[2], map.key_size)?;
        let place = u32::from_le_bytes(key.try_into().ok()?) as usize;
        if place >= map.taken.len() {
            return Some(0);
        }
        Some(VALUES_START + number * VALUES_ROOM + (place * map.stride) as u64)
    }

    /// Calls the one helper that is here.
    fn help(&mut self, at: i64) -> Flow {
        let Some(answer) = self.look_up() else {
            return Flow::Fault;
        };
        self.registers[..6].copy_from_slice(&[answer, 0, 0, 0, 0, 0]);
        Flow::Next(at + 1)
    }

    /// Carries out the instruction in slot `at`.
    #[inline(always)]
    fn step(&mut self, code: &[Insn], at: i64, insn: &Insn) -> Flow {
        let target = insn.target as usize;
        let source = insn.source as usize;
        let imm = i64::from(insn.imm) as u64;
        macro_rules! alu64 {
            ($right:expr, $f:expr) => {{
                let right: u64 = $right;
                self.registers[target] = $f(self.registers[target], right);
                Flow::Next(at + 1)
            }};
        }
        macro_rules! alu32 {
            ($right:expr, $f:expr) => {{
                let right: u32 = $right as u32;
                self.registers[target] = u64::from($f(self.registers[target] as u32, right));
                Flow::Next(at + 1)
            }};
        }
        macro_rules! jump64 {
            ($right:expr, $f:expr) => {{
                let right: u64 = $right;
                if $f(self.registers[target], right) {
                    Flow::Next(at + 1 + i64::from(insn.offset))
                } else {
                    Flow::Next(at + 1)
                }
            }};
        }
        macro_rules! jump32 {
            ($right:expr, $f:expr) => {{
                let right: u32 = $right as u32;
                if $f(self.registers[target] as u32, right) {
                    Flow::Next(at + 1 + i64::from(insn.offset))
                } else {
                    Flow::Next(at + 1)
                }
            }};
        }
        macro_rules! load {
            ($size:literal, $extend:expr) => {{
                let address = self.registers[source].wrapping_add(i64::from(insn.offset) as u64);
                match self.load::<$size>(address) {
                    Some(value) => {
                        self.registers[target] = $extend(value);
                        Flow::Next(at + 1)
                    }
                    None => Flow::Fault,
                }
            }};
        }
        macro_rules! store {
            ($size:literal, $value:expr) => {{
                let address = self.registers[target].wrapping_add(i64::from(insn.offset) as u64);
                let value = $value;
                match self.store::<$size>(address, value) {
                    Some(()) => Flow::Next(at + 1),
                    None => Flow::Fault,
                }
            }};
        }
        let signed = insn.offset != 0;
        match insn.opcode {
            0x04 => alu32!(imm, u32::wrapping_add),
            0x0c => alu32!(self.registers[source], u32::wrapping_add),
            0x14 => alu32!(imm, u32::wrapping_sub),
            0x1c => alu32!(self.registers[source], u32::wrapping_sub),
            0x24 => alu32!(imm, u32::wrapping_mul),
            0x2c => alu32!(self.registers[source], u32::wrapping_mul),
            0x34 if signed => alu32!(imm, signed_quotient32),
            0x3c if signed => alu32!(self.registers[source], signed_quotient32),
            0x34 => alu32!(imm, |a: u32, b| a.checked_div(b).unwrap_or(0)),
            0x3c => alu32!(self.registers[source], |a: u32, b| a
                .checked_div(b)
                .unwrap_or(0)),
            0x44 => alu32!(imm, |a, b| a | b),
            0x4c => alu32!(self.registers[source], |a, b| a | b),
            0x54 => alu32!(imm, |a, b| a & b),
            0x5c => alu32!(self.registers[source], |a, b| a & b),
            0x64 => alu32!(imm, u32::wrapping_shl),
            0x6c => alu32!(self.registers[source], u32::wrapping_shl),
            0x74 => alu32!(imm, u32::wrapping_shr),
            0x7c => alu32!(self.registers[source], u32::wrapping_shr),
            0x84 => alu32!(0, |a: u32, _| a.wrapping_neg()),
            0x94 if signed => alu32!(imm, signed_remainder32),
            0x9c if signed => alu32!(self.registers[source], signed_remainder32),
            0x94 => alu32!(imm, |a: u32, b| a.checked_rem(b).unwrap_or(a)),
            0x9c => alu32!(self.registers[source], |a: u32, b| a
                .checked_rem(b)
                .unwrap_or(a)),
            0xa4 => alu32!(imm, |a, b| a ^ b),
            0xac => alu32!(self.registers[source], |a, b| a ^ b),
            0xb4 => alu32!(imm, |_, b| b),
            0xbc if signed => alu32!(extended(self.registers[source], insn.offset), |_, b| b),
            0xbc => alu32!(self.registers[source], |_, b| b),
            0xc4 => alu32!(imm, |a, b| (a as i32).wrapping_shr(b) as u32),
            0xcc => alu32!(self.registers[source], |a, b| (a as i32).wrapping_shr(b)
                as u32),
            0xd4 => alu64!(imm, |a, bits| a << (64 - bits) >> (64 - bits)),
            0xdc => alu64!(imm, |a: u64, bits| a.swap_bytes() >> (64 - bits)),
            0x07 => alu64!(imm, u64::wrapping_add),
            0x0f => alu64!(self.registers[source], u64::wrapping_add),
            0x17 => alu64!(imm, u64::wrapping_sub),
            0x1f => alu64!(self.registers[source], u64::wrapping_sub),
            0x27 => alu64!(imm, u64::wrapping_mul),
            0x2f => alu64!(self.registers[source], u64::wrapping_mul),
            0x37 if signed => alu64!(imm, signed_quotient64),
            0x3f if signed => alu64!(self.registers[source], signed_quotient64),
            0x37 => alu64!(imm, |a: u64, b| a.checked_div(b).unwrap_or(0)),
            0x3f => alu64!(self.registers[source], |a: u64, b| a
                .checked_div(b)
                .unwrap_or(0)),
            0x47 => alu64!(imm, |a, b| a | b),
            0x4f => alu64!(self.registers[source], |a, b| a | b),
            0x57 => alu64!(imm, |a, b| a & b),
            0x5f => alu64!(self.registers[source], |a, b| a & b),
            0x67 => alu64!(imm, |a: u64, b| a.wrapping_shl(b as u32)),
            0x6f => alu64!(self.registers[source], |a: u64, b| a.wrapping_shl(b as u32)),
            0x77 => alu64!(imm, |a: u64, b| a.wrapping_shr(b as u32)),
            0x7f => alu64!(self.registers[source], |a: u64, b| a.wrapping_shr(b as u32)),
            0x87 => alu64!(0, |a: u64, _| a.wrapping_neg()),
            0x97 if signed => alu64!(imm, signed_remainder64),
            0x9f if signed => alu64!(self.registers[source], signed_remainder64),
            0x97 => alu64!(imm, |a: u64, b| a.checked_rem(b).unwrap_or(a)),
            0x9f => alu64!(self.registers[source], |a: u64, b| a
                .checked_rem(b)
                .unwrap_or(a)),
            0xa7 => alu64!(imm, |a, b| a ^ b),
            0xaf => alu64!(self.registers[source], |a, b| a ^ b),
            0xb7 => alu64!(imm, |_, b| b),
            0xbf if signed => alu64!(extended(self.registers[source], insn.offset), |_, b| b),
            0xbf => alu64!(self.registers[source], |_, b| b),
            0xc7 => alu64!(imm, |a, b| (a as i64).wrapping_shr(b as u32) as u64),
            0xcf => alu64!(
                self.registers[source],
                |a, b| (a as i64).wrapping_shr(b as u32) as u64
            ),
            0xd7 => alu64!(imm, |a: u64, bits| a.swap_bytes() >> (64 - bits)),
            0x05 => Flow::Next(at + 1 + i64::from(insn.offset)),
            0x06 => Flow::Next(at + 1 + i64::from(insn.imm)),
            0x15 => jump64!(imm, |a, b| a == b),
            0x1d => jump64!(self.registers[source], |a, b| a == b),
            0x25 => jump64!(imm, |a, b| a > b),
            0x2d => jump64!(self.registers[source], |a, b| a > b),
            0x35 => jump64!(imm, |a, b| a >= b),
            0x3d => jump64!(self.registers[source], |a, b| a >= b),
            0x45 => jump64!(imm, |a, b| a & b != 0),
            0x4d => jump64!(self.registers[source], |a, b| a & b != 0),
            0x55 => jump64!(imm, |a, b| a != b),
            0x5d => jump64!(self.registers[source], |a, b| a != b),
            0x65 => jump64!(imm, |a, b| a as i64 > b as i64),
            0x6d => jump64!(self.registers[source], |a, b| a as i64 > b as i64),
            0x75 => jump64!(imm, |a, b| a as i64 >= b as i64),
            0x7d => jump64!(self.registers[source], |a, b| a as i64 >= b as i64),
            0xa5 => jump64!(imm, |a, b| a < b),
            0xad => jump64!(self.registers[source], |a, b| a < b),
            0xb5 => jump64!(imm, |a, b| a <= b),
            0xbd => jump64!(self.registers[source], |a, b| a <= b),
            0xc5 => jump64!(imm, |a, b| (a as i64) < b as i64),
            0xcd => jump64!(self.registers[source], |a, b| (a as i64) < b as i64),
            0xd5 => jump64!(imm, |a, b| a as i64 <= b as i64),
            0xdd => jump64!(self.registers[source], |a, b| a as i64 <= b as i64),
            0x16 => jump32!(imm, |a, b| a == b),
            0x1e => jump32!(self.registers[source], |a, b| a == b),
            0x26 => jump32!(imm, |a, b| a > b),
            0x2e => jump32!(self.registers[source], |a, b| a > b),
            0x36 => jump32!(imm, |a, b| a >= b),
            0x3e => jump32!(self.registers[source], |a, b| a >= b),
            0x46 => jump32!(imm, |a, b| a & b != 0),
            0x4e => jump32!(self.registers[source], |a, b| a & b != 0),
            0x56 => jump32!(imm, |a, b| a != b),
            0x5e => jump32!(self.registers[source], |a, b| a != b),
            0x66 => jump32!(imm, |a, b| a as i32 > b as i32),
            0x6e => jump32!(self.registers[source], |a, b| a as i32 > b as i32),
            0x76 => jump32!(imm, |a, b| a as i32 >= b as i32),
            0x7e => jump32!(self.registers[source], |a, b| a as i32 >= b as i32),
            0xa6 => jump32!(imm, |a, b| a < b),
            0xae => jump32!(self.registers[source], |a, b| a < b),
            0xb6 => jump32!(imm, |a, b| a <= b),
            0xbe => jump32!(self.registers[source], |a, b| a <= b),
            0xc6 => jump32!(imm, |a, b| (a as i32) < b as i32),
            0xce => jump32!(self.registers[source], |a, b| (a as i32) < b as i32),
            0xd6 => jump32!(imm, |a, b| a as i32 <= b as i32),
            0xde => jump32!(self.registers[source], |a, b| a as i32 <= b as i32),
            0x85 if insn.source == 1 => self.call(at, insn.imm),
            0x85 if insn.imm == 1 => self.help(at),
            0x85 => Flow::Fault,
            0x95 => self.exit(),
            0x61 => load!(4, |value| value),
            0x69 => load!(2, |value| value),
            0x71 => load!(1, |value| value),
            0x79 => load!(8, |value| value),
            0x81 => load!(4, |value| value as i32 as i64 as u64),
            0x89 => load!(2, |value| value as i16 as i64 as u64),
            0x91 => load!(1, |value| value as i8 as i64 as u64),
            0x62 => store!(4, imm),
            0x6a => store!(2, imm),
            0x72 => store!(1, imm),
            0x7a => store!(8, imm),
            0x63 => store!(4, self.registers[source]),
            0x6b => store!(2, self.registers[source]),
            0x73 => store!(1, self.registers[source]),
            0x7b => store!(8, self.registers[source]),
            0x18 => {
                let Some(half) = code.get(at as usize + 1) else {
                    return Flow::Fault;
                };
                self.registers[target] =
                    u64::from(insn.imm as u32) | u64::from(half.imm as u32) << 32;
                Flow::Next(at + 2)
            }
            _ => Flow::Fault,
        }
    }

    #[inline(never)]
    fn run(&mut self, code: &[Insn]) -> Halt {
        self.registers = [0; 11];
        self.registers[1] = CONTEXT_START;
        self.registers[10] = STACK_START + FRAME_SIZE as u64;
        self.callers.clear();
        self.stack[..FRAME_SIZE].fill(0);
        let mut next: i64 = 0;
        for used in 0..BUDGET {
            let Some(insn) = usize::try_from(next).ok().and_then(|at| code.get(at)) else {
                return Halt::Faulted(used);
            };
            if insn.half {
                return Halt::Faulted(used);
            }
            match self.step(code, next, insn) {
                Flow::Next(slot) => next = slot,
                Flow::End => return Halt::Ended(used + 1),
                Flow::Fault => return Halt::Faulted(used + 1),
            }
        }
        Halt::Spent
    }
}

fn signed_quotient32(left: u32, right: u32) -> u32 {
    if right == 0 {
        0
    } else {
        (left as i32).wrapping_div(right as i32) as u32
    }
}

fn signed_quotient64(left: u64, right: u64) -> u64 {
    if right == 0 {
        0
    } else {
        (left as i64).wrapping_div(right as i64) as u64
    }
}

fn signed_remainder32(left: u32, right: u32) -> u32 {
    if right == 0 {
        left
    } else {
        (left as i32).wrapping_rem(right as i32) as u32
    }
}

fn signed_remainder64(left: u64, right: u64) -> u64 {
    if right == 0 {
        left
    } else {
        (left as i64).wrapping_rem(right as i64) as u64
    }
}

/// The low bits, as many as the offset of a MOV says, with their sign.
fn extended(value: u64, bits: i16) -> u64 {
    match bits {
        8 => value as i8 as i64 as u64,
        16 => value as i16 as i64 as u64,
        _ => value as i32 as i64 as u64,
    }
}

/// r2 to r5 by additions, a product, shifts and an exclusive or.
const ARITHMETIC: [u64; 9] = [
    0xb702_0000_0700_0000,
    0x0f21_0000_0000_0000,
    0x2703_0000_0500_0000,
    0xaf31_0000_0000_0000,
    0x6701_0000_0300_0000,
    0x7701_0000_0200_0000,
    0x0c21_0000_0000_0000,
    0x1f32_0000_0000_0000,
    0x0500_f8ff_0000_0000,
];

/// Loads of 1, 2, 4 and 8 bytes from the packet.
const LOADS: [u64; 6] = [
    0x6112_0000_0000_0000,
    0x7123_0c00_0000_0000,
    0x6924_0c00_0000_0000,
    0x6125_1a00_0000_0000,
    0x7926_2000_0000_0000,
    0x0500_fbff_0000_0000,
];

/// Adds 1 to the first value of an array, which it looks up each time.
const LOOK_UPS: [u64; 9] = [
    0x1801_0000_0000_0070, // r1 = the map, in two slots
    0x0000_0000_0000_0000,
    0xbfa2_0000_0000_0000, // r2 = the frame's top
    0x0702_0000_fcff_ffff, // r2 -= 4, where the key 0 stands
    0x8500_0000_0100_0000, // r0 = the value's address
    0x7903_0000_0000_0000, // r3 = the value
    0x0703_0000_0100_0000, // r3 += 1
    0x7b30_0000_0000_0000, // the value = r3
    0x0500_f7ff_0000_0000, // to the first slot
];

/// Passes IPv4 with no options and drops the rest. Each of the 14 instructions is carried out once.
const FILTER: [u64; 14] = [
    0xb700_0000_0100_0000, // r0 = 1
    0x6112_0000_0000_0000, // r2 = the packet's start
    0x6113_0400_0000_0000, // r3 = its end
    0xbf24_0000_0000_0000, // r4 = r2
    0x0704_0000_2200_0000, // r4 += 34
    0x2d34_0700_0000_0000, // to the exit if r4 > r3
    0x6925_0c00_0000_0000, // r5 = the protocol
    0x5505_0500_0800_0000, // to the exit if it isn't IPv4
    0x7126_0e00_0000_0000, // r6 = version and size
    0x5706_0000_0f00_0000, // r6 &= 15
    0x6706_0000_0200_0000, // r6 <<= 2
    0x5506_0100_1400_0000, // to the exit if r6 isn't 20
    0xb700_0000_0200_0000, // r0 = 2
    0x9500_0000_0000_0000, // exit
];

fn decode(slots: &[u64]) -> Vec<Insn> {
    let mut insns: Vec<Insn> = Vec::new();
    for slot in slots {
        let [opcode, registers, low, high, imm @ ..] = slot.to_be_bytes();
        let half = insns.last().is_some_and(|insn| insn.opcode == 0x18);
        insns.push(Insn {
            opcode,
            target: registers % 16,
            source: registers / 16,
            offset: i16::from_le_bytes([low, high]),
            imm: i32::from_le_bytes(imm),
            half,
        });
    }
    insns
}

/// What a repetition took, and how many instructions were counted.
struct Taken {
    time: Duration,
    used: u64,
}

/// The quickest of the repetitions of so many runs of a program.
fn quickest(slots: &[u64], runs: u32) -> Taken {
    let code = decode(slots);
    let mut machine = Machine::new();
    let mut packet = [0x45; 64];
    packet[12] = 0x08;
    packet[13] = 0x00;
    machine.packet.fill(&packet);
    let repetitions = (0..REPETITIONS).map(|_| {
        let start = Instant::now();
        let used = (0..runs)
            .map(|_| u64::from(machine.run(&code).used()))
            .sum();
        Taken {
            time: start.elapsed(),
            used,
        }
    });
    repetitions
        .min_by_key(|taken| taken.time)
        .expect("some repetitions")
}

/// Prints how many instructions a second a loop comes to.
fn rate(name: &str, slots: &[u64]) {
    let taken = quickest(slots, LOOP_RUNS);
    let rate = u128::from(taken.used) / taken.time.as_micros().max(1);
    println!("plain Rust, {name}: {rate} million instructions a second");
}

/// Prints how many nanoseconds a run of a short program takes.
fn time(name: &str, slots: &[u64]) {
    let taken = quickest(slots, SHORT_RUNS);
    let nanos = taken.time.as_nanos() / u128::from(SHORT_RUNS);
    let used = taken.used / u64::from(SHORT_RUNS);
    println!("plain Rust, {name}: {nanos} ns for {used} instructions");
}

fn main() {
    rate("arithmetic", &ARITHMETIC);
    rate("loads from the packet", &LOADS);
    rate("look-ups in a map", &LOOK_UPS);
    time("a filter", &FILTER);
}
