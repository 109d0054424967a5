//! SHA-256 (FIPS 180-4), so that the digests can be compared without a dependency.

fn is_prime(n: u64) -> bool {
    (2..n).take_while(|d| d * d <= n).all(|d| n % d != 0)
}

/// The first 32 bits of the fraction of a prime's root, square or cube, found in whole numbers.
fn root_fraction(prime: u64, power: u32) -> u32 {
    // The greatest r with r^power at most prime * 2^(32 * power), bit by bit.
    let bound = (prime as u128) << (32 * power);
    let mut root: u128 = 0;
    for bit in (0..38).rev() {
        let next = root | 1 << bit;
        if next.pow(power) <= bound {
            root = next;
        }
    }
    root as u32
}

fn round(state: [u32; 8], k: u32, w: u32) -> [u32; 8] {
    let [a, b, c, d, e, f, g, h] = state;
    let s1 = e.rotate_right(6) ^ e.rotate_right(11) ^ e.rotate_right(25);
    let choice = (e & f) ^ (!e & g);
    let t1 = h
        .wrapping_add(s1)
        .wrapping_add(choice)
        .wrapping_add(k)
        .wrapping_add(w);
    let s0 = a.rotate_right(2) ^ a.rotate_right(13) ^ a.rotate_right(22);
    let majority = (a & b) ^ (a & c) ^ (b & c);
    let t2 = s0.wrapping_add(majority);
    [t1.wrapping_add(t2), a, b, c, d.wrapping_add(t1), e, f, g]
}

fn schedule(block: &[u8]) -> Vec<u32> {
    let word = |bytes: &[u8]| u32::from_be_bytes(bytes.try_into().unwrap());
    let mut w: Vec<u32> = block.chunks(4).map(word).collect();
    for i in 16..64 {
        let (x, y) = (w[i - 15], w[i - 2]);
        let s0 = x.rotate_right(7) ^ x.rotate_right(18) ^ x >> 3;
        let s1 = y.rotate_right(17) ^ y.rotate_right(19) ^ y >> 10;
        let sum = w[i - 16].wrapping_add(s0).wrapping_add(w[i - 7]);
        w.push(sum.wrapping_add(s1));
    }
    w
}

/// The digest in lower-case hexadecimal.
pub fn sha256(message: &[u8]) -> String {
    let primes: Vec<u64> = (2..).filter(|n| is_prime(*n)).take(64).collect();
    let k: Vec<u32> = primes.iter().map(|p| root_fraction(*p, 3)).collect();
    let mut hash = [0; 8];
    for (word, prime) in hash.iter_mut().zip(&primes) {
        *word = root_fraction(*prime, 2);
    }
    let mut padded = message.to_vec();
    padded.push(0x80);
    padded.resize(padded.len().next_multiple_of(64), 0);
    if padded.len() - message.len() < 9 {
        padded.resize(padded.len() + 64, 0);
    }
    let end = padded.len() - 8;
    padded[end..].copy_from_slice(&(8 * message.len() as u64).to_be_bytes());
    for block in padded.chunks(64) {
        let w = schedule(block);
        let done = (0..64).fold(hash, |state, i| round(state, k[i], w[i]));
        for (word, add) in hash.iter_mut().zip(done) {
            *word = word.wrapping_add(add);
        }
    }
    hash.iter().map(|word| format!("{word:08x}")).collect()
}
