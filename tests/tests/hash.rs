//! The product's SHA-3 against the reference's.

use paddockyear_tests::ffi::hash;
use paddockyear_tests::random::Random;
use paddockyear_tests::reference::sha3;

/// Both hashes of one message, whole and split into three at random places.
fn compare(random: &mut Random, message: &[u8]) {
    let (due_224, due_256) = (sha3::sha3_224(message), sha3::sha3_256(message));
    assert_eq!(hash::sha3_224(message), due_224, "{} bytes", message.len());
    assert_eq!(hash::sha3_256(message), due_256, "{} bytes", message.len());
    let second = random.index(message.len() + 1);
    let first = random.index(second + 1);
    let parts = [&message[..first], &message[first..second], &message[second..]];
    assert_eq!(hash::sha3_224_parts(parts), due_224, "split at {first}, {second}");
    assert_eq!(hash::sha3_256_parts(parts), due_256, "split at {first}, {second}");
}

/// Every length from 0 to 1,000 bytes.
#[test]
fn every_length() {
    let random = &mut Random::new(50);
    for length in 0..=1_000 {
        let message = random.bytes(length);
        compare(random, &message);
    }
}

#[test]
fn random_messages() {
    let random = &mut Random::new(51);
    for _ in 0..1_500 {
        let length = random.index(1_001);
        let message = random.bytes(length);
        compare(random, &message);
    }
}

/// Around the block boundaries of both rates, with parts of every small length.
#[test]
fn splits_around_the_rate() {
    let random = &mut Random::new(52);
    for rate in [136, 144] {
        let message = random.bytes(2 * rate + 1);
        for second in rate - 2..=message.len() {
            for first in [0, 1, second / 2, second - 1, second] {
                let parts = [&message[..first], &message[first..second], &message[second..]];
                assert_eq!(hash::sha3_224_parts(parts), sha3::sha3_224(&message));
                assert_eq!(hash::sha3_256_parts(parts), sha3::sha3_256(&message));
            }
        }
    }
}

/// Behind each number of bytes in a block a part of some bytes, halves of a lane, lanes or blocks.
#[test]
fn parts_behind_every_start() {
    let random = &mut Random::new(55);
    for rate in [136, 144] {
        let message = random.bytes(4 * rate);
        for first in 0..=rate {
            for length in [1, 3, 4, 5, 7, 8, 9, 12, rate - 1, rate, rate + 1, 2 * rate + 4] {
                let second = first + length;
                let parts = [&message[..first], &message[first..second], &message[second..]];
                assert_eq!(hash::sha3_224_parts(parts), sha3::sha3_224(&message));
                assert_eq!(hash::sha3_256_parts(parts), sha3::sha3_256(&message));
                let whole = &message[..second];
                let parts = [&message[..first], &message[first..second], &[]];
                assert_eq!(hash::sha3_224_parts(parts), sha3::sha3_224(whole));
                assert_eq!(hash::sha3_256_parts(parts), sha3::sha3_256(whole));
            }
        }
    }
}

#[test]
fn a_long_message() {
    let random = &mut Random::new(53);
    let message = random.bytes(1_000_003);
    compare(random, &message);
}

#[test]
fn permutations_of_random_states() {
    let random = &mut Random::new(54);
    for _ in 0..2_000 {
        let mut lanes: [u64; 25] = std::array::from_fn(|_| random.word());
        let mut due = lanes;
        sha3::keccak_f(&mut due);
        hash::keccak_f(&mut lanes);
        assert_eq!(lanes, due);
    }
}

/// Single set bits reach every lane and rotation.
#[test]
fn permutations_of_single_bits() {
    for bit in 0..1600 {
        let mut lanes = [0; 25];
        lanes[bit / 64] = 1 << (bit % 64);
        let mut due = lanes;
        sha3::keccak_f(&mut due);
        hash::keccak_f(&mut lanes);
        assert_eq!(lanes, due, "bit {bit}");
    }
}
