// The encoder's shape in plain Rust, beside which the proved one is measured: a register of five words, four bytes a
// step, by rows of a table that is made once, whose first words stand apart from those behind. See encode.sh.
use std::time::Instant;

const DATA: usize = 187;
const WORD: usize = 207;
const PARITY: usize = WORD - DATA;
const ROUNDS: u32 = 200;
const WORDS: u32 = 2_000;
const CHECKED: u32 = 1_000;

// A register: its first word, and the four behind.
#[derive(Clone, Copy)]
struct Register {
    first: u32,
    rest: [u32; 4],
}

// The rows of one place of a step.
#[derive(Clone, Copy)]
struct Place {
    firsts: [u32; 256],
    rests: [[u32; 4]; 256],
}

struct Table {
    places: Box<[Place; 4]>,
}

fn product(mut a: u8, mut b: u8) -> u8 {
    let mut sum = 0;
    while b != 0 {
        if b & 1 == 1 {
            sum ^= a;
        }
        a = (a << 1) ^ if a & 0x80 == 0 { 0 } else { 0x1D };
        b >>= 1;
    }
    sum
}

fn generator() -> [u8; PARITY] {
    let mut low = [0; PARITY];
    let mut root = 1;
    for degree in 0..PARITY {
        let mut before = 1;
        for coefficient in &mut low[..=degree] {
            let here = *coefficient;
            *coefficient ^= product(root, before);
            before = here;
        }
        root = product(2, root);
    }
    low
}

impl Table {
    fn new() -> Table {
        let low = generator();
        let mut places = Box::new([Place { firsts: [0; 256], rests: [[0; 4]; 256] }; 4]);
        for f in 0..256 {
            let mut register = [0; PARITY];
            for (k, place) in places.iter_mut().enumerate() {
                let factor = register[0] ^ if k == 0 { f as u8 } else { 0 };
                register.rotate_left(1);
                register[PARITY - 1] = 0;
                for (byte, coefficient) in register.iter_mut().zip(low) {
                    *byte ^= product(factor, coefficient);
                }
                let (words, _) = register.as_chunks::<4>();
                place.firsts[f] = u32::from_le_bytes(words[0]);
                for (word, bytes) in place.rests[f].iter_mut().zip(&words[1..]) {
                    *word = u32::from_le_bytes(*bytes);
                }
            }
        }
        Table { places }
    }

    #[inline(always)]
    fn fed(&self, state: Register, bytes: &[u8; 4]) -> Register {
        let factors = (u32::from_le_bytes(*bytes) ^ state.first).to_le_bytes();
        let mut first = state.rest[0];
        let mut rest = [state.rest[1], state.rest[2], state.rest[3], 0];
        for k in 0..4 {
            let (place, factor) = (&self.places[3 - k], factors[k] as usize);
            first ^= place.firsts[factor];
            for (word, added) in rest.iter_mut().zip(&place.rests[factor]) {
                *word ^= *added;
            }
        }
        Register { first, rest }
    }

    #[inline(always)]
    fn started(&self, head: &[u8]) -> Register {
        self.fed(Register { first: 0, rest: [0; 4] }, &[0, head[0], head[1], head[2]])
    }

    fn encode(&self, head: &[u8; DATA], word: &mut [u8; WORD]) {
        let mut state = self.started(head);
        for bytes in head[3..].as_chunks::<4>().0 {
            state = self.fed(state, bytes);
        }
        join(head, &state, word);
    }

    fn complete_four(&self, words: &mut [[u8; WORD]; 4]) {
        let [one, two, three, four] = &*words;
        let (mut a, mut b, mut c, mut d) = (self.started(one), self.started(two), self.started(three), self.started(four));
        for step in 0..DATA / 4 {
            let at = 3 + 4 * step;
            a = self.fed(a, &[one[at], one[at + 1], one[at + 2], one[at + 3]]);
            b = self.fed(b, &[two[at], two[at + 1], two[at + 2], two[at + 3]]);
            c = self.fed(c, &[three[at], three[at + 1], three[at + 2], three[at + 3]]);
            d = self.fed(d, &[four[at], four[at + 1], four[at + 2], four[at + 3]]);
        }
        for (state, word) in [a, b, c, d].iter().zip(words) {
            put_behind(state, word);
        }
    }
}

fn join(head: &[u8; DATA], state: &Register, word: &mut [u8; WORD]) {
    word[..DATA].copy_from_slice(head);
    put_behind(state, word);
}

fn put_behind(state: &Register, word: &mut [u8; WORD]) {
    let (bytes, _) = word[DATA..].as_chunks_mut::<4>();
    bytes[0] = state.first.to_le_bytes();
    for (bytes, part) in bytes[1..].iter_mut().zip(state.rest) {
        *bytes = part.to_le_bytes();
    }
}

fn add(head: &mut [u8], parity: &[u8]) {
    for (byte, added) in head.iter_mut().zip(parity) {
        *byte ^= *added;
    }
}

fn encode(table: &Table, words: u32) -> [u8; PARITY] {
    let mut head = [1; DATA];
    let mut word = [0; WORD];
    for _ in 0..words {
        table.encode(&head, &mut word);
        add(&mut head, &word[DATA..]);
    }
    word[DATA..].try_into().unwrap()
}

fn complete_four(table: &Table, fours: u32) -> [[u8; PARITY]; 4] {
    let mut words = [[1; WORD], [2; WORD], [3; WORD], [4; WORD]];
    for _ in 0..fours {
        table.complete_four(&mut words);
        for word in &mut words {
            let (head, parity) = word.split_at_mut(DATA);
            add(head, parity);
        }
    }
    words.map(|word| word[DATA..].try_into().unwrap())
}

fn hex(bytes: &[u8]) -> String {
    bytes.iter().map(|byte| format!("{byte:02x}")).collect()
}

fn main() {
    let table = Table::new();
    if std::env::args().nth(1).is_none() {
        let four = complete_four(&table, CHECKED).map(|parity| hex(&parity)).join(" ");
        println!("encode {} complete_four {four}", hex(&encode(&table, CHECKED)));
        return;
    }
    let (mut one, mut four) = (u128::MAX, u128::MAX);
    let mut sum = 0u8;
    for _ in 0..ROUNDS {
        let start = Instant::now();
        sum = sum.wrapping_add(encode(&table, WORDS)[0]);
        one = one.min(start.elapsed().as_nanos());
        let start = Instant::now();
        let parities = complete_four(&table, WORDS);
        sum = sum.wrapping_add(parities[0][0] ^ parities[3][0]);
        four = four.min(start.elapsed().as_nanos());
    }
    println!("encode {} ns a packet", one / u128::from(WORDS));
    println!("complete_four {} ns a packet", four / u128::from(4 * WORDS));
    println!("sum {sum}");
}
