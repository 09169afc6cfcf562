// The shapes of the coding's parts in plain Rust, beside which the proved ones are measured: whitening by a local copy, the
// interleaver in one block, the outer coding of both with the encoder, the trellis coders in sixteen lanes, a group of all of these
// with the field sync and the segment syncs, and the certificate of a least path. See codec.sh.
use std::array::from_fn;
use std::hint::black_box;
use std::time::Instant;

mod encoder {
    #![allow(dead_code)]
    include!("encode.rs");

    pub struct Encoder(Table);

    impl Encoder {
        pub fn new() -> Encoder {
            Encoder(Table::new())
        }

        pub fn encode(&self, head: &[u8; DATA], word: &mut [u8; WORD]) {
            self.0.encode(head, word);
        }

        pub fn complete_four(&self, words: &mut [[u8; WORD]; 4]) {
            self.0.complete_four(words);
        }
    }
}

use encoder::Encoder;

const DATA: usize = 187;
const WORD: usize = 207;
const FIELD: usize = 312;
const BRANCHES: usize = 52;
const DELAY: usize = 4 * BRANCHES;
const HELD: usize = DELAY * (BRANCHES - 1);
// From the first byte that a row may take to the last.
const ROW: usize = HELD + BRANCHES;
const ROOM: usize = 32_768;
const CODERS: usize = 12;
const GROUP_BYTES: usize = 828;
const GROUP_SYMBOLS: usize = 3_328;
const SEGMENT: usize = 832;
const SYNC_FRONT: usize = 820;
const LAST: usize = 12;
const GROUP_PACKETS: usize = 4;
const PACKET: usize = 188;
const CODER_SYMBOLS: usize = 21_528;
const ROUNDS: u32 = 400;
const WHITENED_FIELDS: usize = 4;
const PASSED: usize = 1_000;

struct Whitener {
    bytes: Vec<u8>,
}

impl Whitener {
    fn new() -> Whitener {
        let mut register = 0xF180u32;
        let mut bytes = Vec::with_capacity(DATA * FIELD);
        for _ in 0..DATA * FIELD {
            let taps = [0, 2, 3, 6, 10, 11, 12, 13];
            bytes.push((0..8).map(|bit| ((register >> taps[bit] & 1) << bit) as u8).sum());
            register *= 2;
            if register >> 16 & 1 == 1 {
                register ^= 0x1_38CB;
            }
        }
        Whitener { bytes }
    }

    fn whiten(&self, from: usize, head: &[u8; DATA]) -> [u8; DATA] {
        let mut white = *head;
        for (byte, white_byte) in white.iter_mut().zip(&self.bytes[from..from + DATA]) {
            *byte ^= white_byte;
        }
        white
    }
}

struct Interleaver {
    next: usize,
    place: usize,
    block: Vec<u8>,
}

impl Interleaver {
    fn new() -> Interleaver {
        Interleaver { next: 0, place: 0, block: vec![0; HELD + ROOM] }
    }

    fn pass<const LEN: usize>(&mut self, bytes: &mut [u8; LEN]) {
        if self.place + LEN + HELD > self.block.len() {
            self.block.copy_within(self.place..self.place + HELD, 0);
            self.place = 0;
        }
        let end = self.place + HELD;
        self.block[end..end + LEN].copy_from_slice(bytes);
        let mut done = 0;
        while done < LEN {
            let place = self.place + done;
            if self.next == 0 && LEN - done >= BRANCHES {
                let there: &[u8; ROW] = (&self.block[place..place + ROW]).try_into().unwrap();
                leave_row(there, (&mut bytes[done..done + BRANCHES]).try_into().unwrap());
                done += BRANCHES;
            } else {
                bytes[done] = self.block[end + done - DELAY * self.next];
                done += 1;
                self.next = if self.next + 1 == BRANCHES { 0 } else { self.next + 1 };
            }
        }
        self.place += LEN;
    }
}

// The bytes of a row that leave, eight of them in one number.
#[inline(always)]
fn leave_row(there: &[u8; ROW], row: &mut [u8; BRANCHES]) {
    let leaves = |branch: usize| there[HELD + branch - DELAY * branch];
    for eight in 0..BRANCHES / 8 {
        let bytes: [u8; 8] = std::array::from_fn(|i| leaves(8 * eight + i));
        row[8 * eight..8 * eight + 8].copy_from_slice(&u64::from_le_bytes(bytes).to_le_bytes());
    }
    for branch in BRANCHES / 8 * 8..BRANCHES {
        row[branch] = leaves(branch);
    }
}

// Sixteen lanes of a byte.
#[cfg(target_arch = "x86_64")]
mod lane {
    use std::arch::x86_64::*;
    use std::mem::transmute;

    #[derive(Clone, Copy)]
    pub struct Lane(__m128i);

    // Bits of the lane before or behind come in by a shift.
    #[allow(unused_unsafe)]
    impl Lane {
        #[inline(always)]
        pub fn of(bytes: [u8; 16]) -> Lane {
            Lane(unsafe { transmute::<[u8; 16], __m128i>(bytes) })
        }
        #[inline(always)]
        pub fn bytes(self) -> [u8; 16] {
            unsafe { transmute::<__m128i, [u8; 16]>(self.0) }
        }
        #[inline(always)]
        pub fn and(self, byte: i8) -> Lane {
            Lane(unsafe { _mm_and_si128(self.0, _mm_set1_epi8(byte)) })
        }
        #[inline(always)]
        pub fn xor(self, other: Lane) -> Lane {
            Lane(unsafe { _mm_xor_si128(self.0, other.0) })
        }
        #[inline(always)]
        pub fn right<const BITS: i32>(self) -> Lane {
            Lane(unsafe { _mm_srli_epi16::<BITS>(self.0) })
        }
        // What stands in the table at the number in each lane, below 16.
        #[inline(always)]
        pub fn looked_up(self, table: [u8; 16]) -> Lane {
            Lane(unsafe { _mm_shuffle_epi8(Lane::of(table).0, self.0) })
        }
        #[inline(always)]
        pub fn less_seven(self) -> Lane {
            Lane(unsafe { _mm_sub_epi8(self.0, _mm_set1_epi8(7)) })
        }
        // The first twelve are those of the places four further on.
        #[inline(always)]
        pub fn turned(self) -> Lane {
            Lane(unsafe { _mm_shuffle_epi32::<0b11_00_10_01>(self.0) })
        }
    }
}

#[cfg(not(target_arch = "x86_64"))]
mod lane {
    use std::array::from_fn;

    #[derive(Clone, Copy)]
    pub struct Lane([u8; 16]);

    impl Lane {
        pub fn of(bytes: [u8; 16]) -> Lane {
            Lane(bytes)
        }
        pub fn bytes(self) -> [u8; 16] {
            self.0
        }
        pub fn and(self, byte: i8) -> Lane {
            Lane(self.0.map(|lane| lane & byte as u8))
        }
        pub fn xor(self, other: Lane) -> Lane {
            Lane(from_fn(|p| self.0[p] ^ other.0[p]))
        }
        pub fn right<const BITS: i32>(self) -> Lane {
            Lane(self.0.map(|lane| lane >> BITS))
        }
        pub fn looked_up(self, table: [u8; 16]) -> Lane {
            Lane(self.0.map(|lane| table[lane as usize]))
        }
        pub fn less_seven(self) -> Lane {
            Lane(self.0.map(|lane| lane.wrapping_sub(7)))
        }
        pub fn turned(self) -> Lane {
            Lane(from_fn(|p| if p < 12 { self.0[(p + 4) % 12] } else { self.0[p] }))
        }
    }
}

use lane::Lane;

// What two pairs lead to from state 0, what two pairs of zeros lead to from each lane, and twice the level that each lane tells. A
// lane has X1 of the pair as bit 3 and the state behind it as bits 2 to 0.
const BEHIND_PAIRS: [u8; 16] =
    [0x00, 0x0a, 0x04, 0x0e, 0xa1, 0xab, 0xa5, 0xaf, 0x44, 0x4e, 0x40, 0x4a, 0xe5, 0xef, 0xe1, 0xeb];
const BEHIND_LANES: [u8; 16] =
    [0x00, 0x21, 0x12, 0x33, 0x44, 0x65, 0x56, 0x77, 0x00, 0x21, 0x12, 0x33, 0x44, 0x65, 0x56, 0x77];
const DOUBLED: [u8; 16] = [0, 2, 0, 2, 8, 10, 8, 10, 4, 6, 4, 6, 12, 14, 12, 14];

impl Lane {
    #[inline(always)]
    fn turned_if(self, begins_segment: bool) -> Lane {
        if begins_segment { self.turned() } else { self }
    }

    #[inline(always)]
    fn emit(self, place: usize, symbols: &mut [u8; GROUP_SYMBOLS]) {
        let sent = self.looked_up(DOUBLED).less_seven().bytes();
        if place <= GROUP_SYMBOLS - 16 {
            symbols[place..place + 16].copy_from_slice(&sent);
        } else {
            symbols[place..].copy_from_slice(&sent[..CODERS]);
        }
    }

    #[inline(always)]
    fn two_rounds(self, pairs: Lane, begins_segment: bool, place: usize, symbols: &mut [u8; GROUP_SYMBOLS]) -> Lane {
        let both = pairs.looked_up(BEHIND_PAIRS).xor(self.looked_up(BEHIND_LANES));
        both.right::<4>().and(15).emit(place, symbols);
        let behind = both.and(15).turned_if(begins_segment);
        behind.emit(place + CODERS + if begins_segment { 4 } else { 0 }, symbols);
        behind
    }
}

struct Trellis {
    states: [u8; CODERS],
}

impl Trellis {
    fn group(&mut self, first: usize, bytes: &[u8; GROUP_BYTES], symbols: &mut [u8; GROUP_SYMBOLS]) {
        let mut lanes = Lane::of(from_fn(|p| if p < CODERS { self.states[(p + 4 * (first % 3)) % CODERS] } else { 0 }));
        for segment in 0..GROUP_PACKETS {
            lanes = Trellis::edge_bytes(lanes, 17 * segment, bytes, symbols);
            for byte in 17 * segment + 1..17 * (segment + 1) {
                let loaded = Lane::of(*bytes[CODERS * byte..].first_chunk().unwrap());
                let place = 4 * CODERS * byte + 4 * (segment + 1);
                lanes = lanes.two_rounds(loaded.right::<4>().and(15), false, place, symbols);
                lanes = lanes.two_rounds(loaded.and(15), false, place + 2 * CODERS, symbols);
            }
        }
        let last = Trellis::edge_bytes(lanes, 68, bytes, symbols).bytes();
        self.states = from_fn(|coder| last[(coder + CODERS - 4 * (first % 3)) % CODERS] % 8);
    }

    // The four rounds of a byte in which a segment may begin.
    fn edge_bytes(lanes: Lane, byte: usize, bytes: &[u8; GROUP_BYTES], symbols: &mut [u8; GROUP_SYMBOLS]) -> Lane {
        let round = 4 * byte;
        let (second, third, fourth) = (round + 1 == 69, round + 2 == 138, round + 3 == 207);
        let place = CODERS * round + 4 * (round / 69 + 1);
        let later = place + 2 * CODERS + if second || third { 4 } else { 0 };
        let mut loaded = [0; 16];
        if byte < 68 {
            loaded.copy_from_slice(&bytes[CODERS * byte..CODERS * byte + 16]);
        } else {
            loaded[..CODERS].copy_from_slice(&bytes[CODERS * byte..]);
        }
        let loaded = Lane::of(loaded);
        let middle = lanes.two_rounds(loaded.right::<4>().and(15), second, place, symbols).turned_if(third);
        middle.two_rounds(loaded.turned_if(second || third).and(15), fourth, later, symbols)
    }
}

// What the front of a first field's sync is, from its recurrences.
fn sync_front() -> [i8; SYNC_FRONT] {
    let mut long = vec![0, 0, 0, 0, 0, 0, 0, 1, 0];
    while long.len() < 511 {
        let back = |k| long[long.len() - k];
        long.push((back(2) + back(3) + back(5) + back(6) + back(8) + back(9)) % 2);
    }
    let mut short = vec![1, 1, 1, 0, 0, 1];
    while short.len() < 63 {
        short.push((short[short.len() - 5] + short[short.len() - 6]) % 2);
    }
    let mode = [0, 0, 0, 0, 1, 1, 1, 1, 0, 0, 0, 0, 1, 1, 1, 1, 0, 1, 0, 1, 1, 0, 1, 0];
    let bits = [&[1, 0, 0, 1], &long[..], &short, &short, &short, &mode, &short, &short[..29]].concat();
    from_fn(|i| if bits[i] == 1 { 5 } else { -5 })
}

struct Group {
    whitener: Whitener,
    encoder: Encoder,
    interleaver: Interleaver,
    coders: Trellis,
    front: [u8; SYNC_FRONT],
    last: [u8; LAST],
    words: [[u8; WORD]; GROUP_PACKETS],
    // (as bytes of a file, in two's complement)
    symbols: [u8; 5 * SEGMENT],
}

impl Group {
    fn new() -> Group {
        Group {
            whitener: Whitener::new(),
            encoder: Encoder::new(),
            interleaver: Interleaver::new(),
            coders: Trellis { states: [0; CODERS] },
            front: sync_front().map(|symbol| symbol as u8),
            last: [-7i8 as u8; LAST],
            words: [[0; WORD]; GROUP_PACKETS],
            symbols: [0; 5 * SEGMENT],
        }
    }

    fn send(&mut self, first: usize, packets: &[[u8; PACKET]; GROUP_PACKETS], sync: bool) {
        for (i, (word, packet)) in self.words.iter_mut().zip(packets).enumerate() {
            word[..DATA].copy_from_slice(&self.whitener.whiten(DATA * (first + i), packet.last_chunk().unwrap()));
        }
        self.encoder.complete_four(&mut self.words);
        let bytes: &mut [u8; GROUP_BYTES] = self.words.as_flattened_mut().try_into().unwrap();
        self.interleaver.pass(bytes);
        let begun = SEGMENT * sync as usize;
        if sync {
            self.symbols[..SYNC_FRONT].copy_from_slice(&self.front);
            self.symbols[SYNC_FRONT..SEGMENT].copy_from_slice(&self.last);
        }
        let sent = self.symbols[begun..].first_chunk_mut().unwrap();
        self.coders.group(first, bytes, sent);
        for segment in sent.chunks_exact_mut(SEGMENT) {
            segment[..4].copy_from_slice(&[5, -5i8 as u8, -5i8 as u8, 5]);
        }
        self.last = *sent.last_chunk().unwrap();
    }
}

// The symbols of a trellis coder in a field, the least path over them, and the least costs from each place on.
struct Certificate {
    symbols: Vec<i8>,
    start: usize,
    levels: Vec<usize>,
    potentials: Vec<[u32; 4]>,
}

fn next_state(state: usize, level: usize) -> usize {
    2 * ((level / 2 % 2 + state % 2) % 2) + state / 2
}

fn squared(symbol: i8, level: usize) -> u32 {
    let off = symbol as i32 - (2 * level as i32 - 7);
    (off * off) as u32
}

// What a step from a state comes to.
fn onto(symbol: i8, state: usize, level: usize, behind: &[u32; 4]) -> u32 {
    squared(symbol, level) + behind[next_state(state, level)]
}

impl Certificate {
    fn new(symbols: Vec<i8>) -> Certificate {
        let best = |symbol, state: usize, behind: &[u32; 4]| {
            (0..4).map(|k| 2 * k + state / 2).min_by_key(|&level| onto(symbol, state, level, behind)).unwrap()
        };
        let mut potentials = vec![[0; 4]; symbols.len() + 1];
        for t in (0..symbols.len()).rev() {
            let behind = potentials[t + 1];
            potentials[t] = from_fn(|state| onto(symbols[t], state, best(symbols[t], state, &behind), &behind));
        }
        let start = (0..4).min_by_key(|&state| potentials[0][state]).unwrap();
        let mut state = start;
        let mut levels = Vec::new();
        for t in 0..symbols.len() {
            levels.push(best(symbols[t], state, &potentials[t + 1]));
            state = next_state(state, levels[t]);
        }
        Certificate { symbols, start, levels, potentials }
    }

    fn proves(&self) -> bool {
        if self.potentials[self.symbols.len()] != [0; 4] || !self.allows_all_steps() {
            return false;
        }
        let least = self.potentials[0][self.start];
        if self.potentials[0].iter().any(|&entry| entry < least) {
            return false;
        }
        let (mut state, mut left) = (self.start, least);
        for (&symbol, &level) in self.symbols.iter().zip(&self.levels) {
            let costs = squared(symbol, level);
            if level >= 8 || level % 2 != state / 2 || costs > left {
                return false;
            }
            left -= costs;
            state = next_state(state, level);
        }
        left == 0
    }

    fn allows_all_steps(&self) -> bool {
        self.symbols.iter().zip(self.potentials.windows(2)).all(|(&symbol, entries)| {
            (0..8).all(|level| {
                let state = 2 * (level % 2);
                entries[0][state] <= onto(symbol, state, level, &entries[1])
                    && entries[0][state + 1] <= onto(symbol, state + 1, level, &entries[1])
            })
        })
    }
}

fn print_least(name: &str, piece: &str, pieces: usize, mut round: impl FnMut() -> u8) {
    let mut least = u128::MAX;
    let mut sum = 0u8;
    for _ in 0..ROUNDS {
        let start = Instant::now();
        sum = sum.wrapping_add(round());
        least = least.min(start.elapsed().as_nanos());
    }
    let pieces = pieces as u128;
    println!("{name} {}.{} ns a {piece}", least / pieces, least % pieces * 10 / pieces);
    println!("sum {sum}");
}

fn whiten() {
    let whitener = Whitener::new();
    let mut head = [1; DATA];
    print_least("whiten", "packet", WHITENED_FIELDS * FIELD, || {
        for _ in 0..WHITENED_FIELDS {
            for place in 0..FIELD {
                head = whitener.whiten(DATA * place, &head);
            }
        }
        head[0]
    });
}

fn spread() {
    let mut interleaver = Interleaver::new();
    let mut word: [u8; WORD] = from_fn(|i| i as u8);
    print_least("spread", "packet", PASSED, || {
        for _ in 0..PASSED {
            interleaver.pass(&mut word);
        }
        word[0]
    });
}

fn outer() {
    let (whitener, encoder, mut interleaver) = (Whitener::new(), Encoder::new(), Interleaver::new());
    let mut head = [1; DATA];
    print_least("outer", "packet", FIELD, || {
        let mut out = [0; WORD];
        for place in 0..FIELD {
            encoder.encode(&whitener.whiten(DATA * place, &head), &mut out);
            interleaver.pass(&mut out);
            for (byte, parity) in head.iter_mut().zip(&out[DATA..]) {
                *byte ^= parity;
            }
        }
        out[0]
    });
}

fn trellis() {
    let mut coders = Trellis { states: [0; CODERS] };
    let mut bytes: [u8; GROUP_BYTES] = from_fn(|i| (i % 251) as u8);
    let mut symbols = [0; GROUP_SYMBOLS];
    let level = |symbol: u8| symbol.wrapping_add(7) / 2;
    print_least("trellis", "group", FIELD / 4, || {
        for group in 0..FIELD / 4 {
            coders.group(4 * group, &bytes, &mut symbols);
            for (byte, symbol) in bytes.iter_mut().zip(&symbols[GROUP_SYMBOLS - CODERS..]) {
                *byte ^= level(*symbol);
            }
        }
        level(symbols[4])
    });
}

fn group() {
    let mut coding = Group::new();
    let mut packets: [[u8; PACKET]; GROUP_PACKETS] =
        from_fn(|p| from_fn(|i| if i == 0 { 0x47 } else { ((i + 50 * p) % 251) as u8 }));
    print_least("group", "group", FIELD / 4, || {
        for group in 0..FIELD / 4 {
            coding.send(4 * group, &packets, group == 0);
            for (byte, symbol) in packets[0][1..].iter_mut().zip(&coding.symbols[4 * SEGMENT - LAST..4 * SEGMENT]) {
                *byte ^= symbol;
            }
        }
        coding.symbols[SEGMENT]
    });
}

fn proves() {
    let symbols: Vec<i8> = (0..CODER_SYMBOLS).map(|t| (t % 251 % 16) as i8 - 8).collect();
    let certificate = Certificate::new(symbols);
    print_least("proves", "symbol", CODER_SYMBOLS, || black_box(&certificate).proves() as u8);
}

fn main() {
    match std::env::args().nth(1).as_deref() {
        Some("whiten") => whiten(),
        Some("spread") => spread(),
        Some("outer") => outer(),
        Some("trellis") => trellis(),
        Some("group") => group(),
        Some("proves") => proves(),
        _ => println!("usage: codec [whiten | spread | outer | trellis | group | proves]"),
    }
}
