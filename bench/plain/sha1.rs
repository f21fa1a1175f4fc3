//! SHA-1 (FIPS 180-4), the whole message at once: for the benchmark of ends.

/// The digest of the bytes.
pub fn sha1(bytes: &[u8]) -> [u8; 20] {
    let mut state = [
        0x6745_2301,
        0xEFCD_AB89,
        0x98BA_DCFE,
        0x1032_5476,
        0xC3D2_E1F0,
    ];
    let mut blocks = bytes.chunks_exact(64);
    for block in &mut blocks {
        compress(&mut state, block.try_into().unwrap());
    }
    let rest = blocks.remainder();
    let mut last = [0; 128];
    last[..rest.len()].copy_from_slice(rest);
    last[rest.len()] = 0x80;
    let end = if rest.len() < 56 { 64 } else { 128 };
    last[end - 8..end].copy_from_slice(&(8 * bytes.len() as u64).to_be_bytes());
    for block in last[..end].chunks_exact(64) {
        compress(&mut state, block.try_into().unwrap());
    }
    let mut digest = [0; 20];
    for (four, word) in digest.chunks_exact_mut(4).zip(state) {
        four.copy_from_slice(&word.to_be_bytes());
    }
    digest
}

/// Twenty rounds of one kind, with their words of the schedule, five at a time, so that no value moves.
#[inline(always)]
fn rounds(state: [u32; 5], words: &[u32], k: u32, f: impl Fn(u32, u32, u32) -> u32) -> [u32; 5] {
    let round = |[a, b, c, d, e]: [u32; 5], word: u32| {
        let next = a
            .rotate_left(5)
            .wrapping_add(f(b, c, d))
            .wrapping_add(e)
            .wrapping_add(k)
            .wrapping_add(word);
        [next, a, b.rotate_left(30), c, d]
    };
    let mut state = state;
    for [v, w, x, y, z] in words.as_chunks().0 {
        state = round(round(round(round(round(state, *v), *w), *x), *y), *z);
    }
    state
}

fn compress(state: &mut [u32; 5], block: &[u8; 64]) {
    let mut words = [0u32; 80];
    for (word, four) in words.iter_mut().zip(block.chunks_exact(4)) {
        *word = u32::from_be_bytes(four.try_into().unwrap());
    }
    for t in 16..80 {
        words[t] = (words[t - 3] ^ words[t - 8] ^ words[t - 14] ^ words[t - 16]).rotate_left(1);
    }
    let parity = |b, c, d| b ^ c ^ d;
    let end = rounds(*state, &words[..20], 0x5A82_7999, |b, c, d| (b & c) | (!b & d));
    let end = rounds(end, &words[20..40], 0x6ED9_EBA1, parity);
    let end = rounds(end, &words[40..60], 0x8F1B_BCDC, |b, c, d| (b & c) | (b & d) | (c & d));
    let end = rounds(end, &words[60..], 0xCA62_C1D6, parity);
    for (word, more) in state.iter_mut().zip(end) {
        *word = word.wrapping_add(more);
    }
}
