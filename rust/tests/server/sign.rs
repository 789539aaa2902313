//! MESSAGE-INTEGRITY (RFC 8489, section 14.5): HMAC-SHA-1 (RFC 2104, RFC 3174), written for these tests alone.

/// MD5 of `user:realm:pass` (RFC 8489, section 9.2.2), by md5sum.
const KEY: [u8; 16] = [
    0x84, 0x93, 0xfb, 0xc5, 0x3b, 0xa5, 0x82, 0xfb, 0x4c, 0x04, 0x4c, 0x45, 0x6b, 0xdc, 0x40, 0xeb,
];

/// Appends the integrity to a message, whose length counts it then.
pub fn signed(mut message: Vec<u8>) -> Vec<u8> {
    let len = u16::try_from(message.len() - 20 + 24).unwrap();
    message[2..4].copy_from_slice(&len.to_be_bytes());
    let value = hmac_sha1(&KEY, &message);
    message.extend(super::attribute(0x0008, &value));
    message
}

/// The key has at most 64 bytes.
fn hmac_sha1(key: &[u8], data: &[u8]) -> [u8; 20] {
    let under = |mask: u8, data: &[u8]| {
        let mut bytes = [mask; 64].to_vec();
        bytes
            .iter_mut()
            .zip(key)
            .for_each(|(byte, of_key)| *byte ^= of_key);
        bytes.extend_from_slice(data);
        sha1(&bytes)
    };
    under(0x5c, &under(0x36, data))
}

fn sha1(data: &[u8]) -> [u8; 20] {
    let mut padded = data.to_vec();
    padded.push(0x80);
    padded.resize((padded.len() + 8).next_multiple_of(64) - 8, 0);
    padded.extend((data.len() as u64 * 8).to_be_bytes());
    let mut state = [
        0x6745_2301,
        0xefcd_ab89,
        0x98ba_dcfe,
        0x1032_5476,
        0xc3d2_e1f0,
    ];
    for block in padded.chunks_exact(64) {
        compress(&mut state, block);
    }
    let mut digest = [0; 20];
    for (bytes, word) in digest.chunks_exact_mut(4).zip(state) {
        bytes.copy_from_slice(&word.to_be_bytes());
    }
    digest
}

#[allow(clippy::many_single_char_names)] // those of FIPS 180-4, section 6.1.2
fn compress(state: &mut [u32; 5], block: &[u8]) {
    let mut words = [0u32; 80];
    for (word, bytes) in words.iter_mut().zip(block.chunks_exact(4)) {
        *word = u32::from_be_bytes(bytes.try_into().unwrap());
    }
    for t in 16..80 {
        words[t] = (words[t - 3] ^ words[t - 8] ^ words[t - 14] ^ words[t - 16]).rotate_left(1);
    }
    let [mut a, mut b, mut c, mut d, mut e] = *state;
    for (t, word) in words.into_iter().enumerate() {
        let (mixed, constant) = match t / 20 {
            0 => ((b & c) | (!b & d), 0x5a82_7999),
            1 => (b ^ c ^ d, 0x6ed9_eba1),
            2 => ((b & c) | (b & d) | (c & d), 0x8f1b_bcdc),
            _ => (b ^ c ^ d, 0xca62_c1d6),
        };
        let next = [a.rotate_left(5), mixed, e, constant, word]
            .into_iter()
            .fold(0u32, u32::wrapping_add);
        (e, d, c, b, a) = (d, c, b.rotate_left(30), a, next);
    }
    for (word, added) in state.iter_mut().zip([a, b, c, d, e]) {
        *word = word.wrapping_add(added);
    }
}

// RFC 2202, section 3, the first test case.
#[test]
fn the_digest_is_that_of_the_rfc() {
    let found = hmac_sha1(&[0x0b; 20], b"Hi There");
    let wanted = [
        0xb6, 0x17, 0x31, 0x86, 0x55, 0x05, 0x72, 0x64, 0xe2, 0x8b, 0xc0, 0xb6, 0xfb, 0x37, 0x8c,
        0x8e, 0xf1, 0x46, 0xbe, 0x00,
    ];
    assert_eq!(found, wanted);
}
