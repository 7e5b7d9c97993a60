//! SHA-256, as FIPS 180-4 defines it: `sha256sum` gives the same.

/// The first 32 bits of the fractional part of a root of n, 2 or 3, by whole numbers alone.
fn fraction_of_root(n: u128, degree: u32) -> u32 {
    // The largest r with r^degree <= n * 2^(32 * degree) is the root's first 32 fractional bits and
    // more.
    let wanted = n << (32 * degree);
    let (mut low, mut high) = (0u128, 1u128 << 40);
    while high - low > 1 {
        let middle = (low + high) / 2;
        if middle.pow(degree) <= wanted {
            low = middle;
        } else {
            high = middle;
        }
    }
    low as u32
}

/// The first 64 primes.
fn primes() -> Vec<u128> {
    (2u128..).filter(|n| (2..*n).all(|d| n % d != 0)).take(64).collect()
}

/// The 64 hexadecimal digits of the sum over these bytes.
pub fn hex(bytes: &[u8]) -> String {
    let primes = primes();
    let constants: Vec<u32> = primes.iter().map(|p| fraction_of_root(*p, 3)).collect();
    let mut state: Vec<u32> = primes[..8].iter().map(|p| fraction_of_root(*p, 2)).collect();
    let mut padded = bytes.to_vec();
    padded.push(0x80);
    padded.resize(padded.len().next_multiple_of(64), 0);
    if padded.len() - bytes.len() < 9 {
        padded.resize(padded.len() + 64, 0);
    }
    let length = padded.len() - 8;
    padded[length..].copy_from_slice(&(8 * bytes.len() as u64).to_be_bytes());
    for block in padded.chunks_exact(64) {
        mix(&mut state, &constants, block);
    }
    state.iter().map(|word| format!("{word:08x}")).collect()
}

/// Takes one block of 64 bytes into the state.
fn mix(state: &mut [u32], constants: &[u32], block: &[u8]) {
    let word = |bytes: &[u8]| u32::from_be_bytes([bytes[0], bytes[1], bytes[2], bytes[3]]);
    let mut words: Vec<u32> = block.chunks_exact(4).map(word).collect();
    for t in 16..64 {
        let (a, b) = (words[t - 15], words[t - 2]);
        let before = a.rotate_right(7) ^ a.rotate_right(18) ^ (a >> 3);
        let after = b.rotate_right(17) ^ b.rotate_right(19) ^ (b >> 10);
        words.push(words[t - 16].wrapping_add(before).wrapping_add(words[t - 7]).wrapping_add(after));
    }
    let [mut a, mut b, mut c, mut d, mut e, mut f, mut g, mut h]: [u32; 8] =
        state.try_into().expect("eight words");
    for t in 0..64 {
        let choice = (e & f) ^ (!e & g);
        let majority = (a & b) ^ (a & c) ^ (b & c);
        let from_e = e.rotate_right(6) ^ e.rotate_right(11) ^ e.rotate_right(25);
        let from_a = a.rotate_right(2) ^ a.rotate_right(13) ^ a.rotate_right(22);
        let first =
            h.wrapping_add(from_e).wrapping_add(choice).wrapping_add(constants[t]).wrapping_add(words[t]);
        let second = from_a.wrapping_add(majority);
        (h, g, f, e) = (g, f, e, d.wrapping_add(first));
        (d, c, b, a) = (c, b, a, first.wrapping_add(second));
    }
    for (word, added) in state.iter_mut().zip([a, b, c, d, e, f, g, h]) {
        *word = word.wrapping_add(added);
    }
}
