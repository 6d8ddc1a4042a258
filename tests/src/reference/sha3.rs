//! SHA3-224 and SHA3-256, step mapping by step mapping as in FIPS 202.

const ROUNDS: usize = 24;

/// A[x][y], one lane of 64 bits each.
type State = [[u64; 5]; 5];

const ROUND_CONSTANTS: [u64; ROUNDS] = round_constants();
const OFFSETS: [[u32; 5]; 5] = rho_offsets();

/// FIPS 202, algorithm 5: the bit rc(t) of the linear feedback shift register.
const fn rc(t: usize) -> u64 {
    let mut register: u16 = 1;
    let mut step = 0;
    while step < t % 255 {
        register <<= 1;
        if register & 0x100 != 0 {
            // The bit shifted out goes to places 0, 4, 5 and 6.
            register ^= 0x171;
        }
        step += 1;
    }
    (register & 1) as u64
}

/// Bit 2^j - 1 of round i's constant is rc(j + 7i).
const fn round_constants() -> [u64; ROUNDS] {
    let mut constants = [0; ROUNDS];
    let mut round = 0;
    while round < ROUNDS {
        let mut j = 0;
        while j <= 6 {
            constants[round] |= rc(j + 7 * round) << ((1 << j) - 1);
            j += 1;
        }
        round += 1;
    }
    constants
}

/// FIPS 202, algorithm 2: the walk over the lanes that gives rho's offsets.
const fn rho_offsets() -> [[u32; 5]; 5] {
    let mut offsets = [[0; 5]; 5];
    let (mut x, mut y) = (1, 0);
    let mut t = 0;
    while t < 24 {
        offsets[x][y] = ((t + 1) * (t + 2) / 2 % 64) as u32;
        (x, y) = (y, (2 * x + 3 * y) % 5);
        t += 1;
    }
    offsets
}

fn theta(a: &State) -> State {
    let parity = a.map(|sheet| sheet.iter().fold(0, |c, lane| c ^ lane));
    let mut out = *a;
    for x in 0..5 {
        let d = parity[(x + 4) % 5] ^ parity[(x + 1) % 5].rotate_left(1);
        out[x].iter_mut().for_each(|lane| *lane ^= d);
    }
    out
}

fn rho(a: &State) -> State {
    let mut out = *a;
    for x in 0..5 {
        for y in 0..5 {
            out[x][y] = a[x][y].rotate_left(OFFSETS[x][y]);
        }
    }
    out
}

fn pi(a: &State) -> State {
    let mut out = *a;
    for x in 0..5 {
        for y in 0..5 {
            out[x][y] = a[(x + 3 * y) % 5][x];
        }
    }
    out
}

fn chi(a: &State) -> State {
    let mut out = *a;
    for x in 0..5 {
        for y in 0..5 {
            out[x][y] = a[x][y] ^ (!a[(x + 1) % 5][y] & a[(x + 2) % 5][y]);
        }
    }
    out
}

fn iota(a: &State, round: usize) -> State {
    let mut out = *a;
    out[0][0] ^= ROUND_CONSTANTS[round];
    out
}

/// Keccak-f[1600]; lane (x, y) stands at place x + 5y.
pub fn keccak_f(lanes: &mut [u64; 25]) {
    let mut state = State::default();
    for (place, lane) in lanes.iter().enumerate() {
        state[place % 5][place / 5] = *lane;
    }
    for round in 0..ROUNDS {
        state = iota(&chi(&pi(&rho(&theta(&state)))), round);
    }
    for (place, lane) in lanes.iter_mut().enumerate() {
        *lane = state[place % 5][place / 5];
    }
}

/// The message with SHA-3's suffix 01 and pad10*1, a multiple of the rate.
fn padded(rate: usize, message: &[u8]) -> Vec<u8> {
    let mut bytes = message.to_vec();
    bytes.push(0x06);
    bytes.resize(bytes.len().next_multiple_of(rate), 0);
    *bytes.last_mut().unwrap() |= 0x80;
    bytes
}

/// A digest of at most `rate` bytes.
fn sponge<const DIGEST: usize>(rate: usize, message: &[u8]) -> [u8; DIGEST] {
    assert!(DIGEST <= rate && rate < 200 && rate.is_multiple_of(8));
    let mut lanes = [0u64; 25];
    for block in padded(rate, message).chunks_exact(rate) {
        for (lane, bytes) in lanes.iter_mut().zip(block.chunks_exact(8)) {
            *lane ^= u64::from_le_bytes(bytes.try_into().unwrap());
        }
        keccak_f(&mut lanes);
    }
    let state: Vec<u8> = lanes.iter().flat_map(|lane| lane.to_le_bytes()).collect();
    state[..DIGEST].try_into().unwrap()
}

/// The capacity is twice the digest.
fn sha3<const DIGEST: usize>(message: &[u8]) -> [u8; DIGEST] {
    sponge(200 - 2 * DIGEST, message)
}

pub fn sha3_224(message: &[u8]) -> [u8; 28] {
    sha3(message)
}

pub fn sha3_256(message: &[u8]) -> [u8; 32] {
    sha3(message)
}
