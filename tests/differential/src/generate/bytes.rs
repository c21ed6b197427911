//! Texts of random bytes and of random tokens.

use crate::rng::Rng;

/// Any bytes, or bytes and tokens that the reader knows.
pub fn random_text(rng: &mut Rng) -> Vec<u8> {
    let length = match rng.below(20) {
        0 => 32_760 + rng.place(16),
        1 => rng.place(2_000),
        _ => rng.place(80),
    };
    match rng.below(3) {
        0 => (0..length).map(|_| rng.any() as u8).collect(),
        1 => {
            let known = b"((())) \n 0123456789 padrunop";
            (0..length).map(|_| rng.pick(known)).collect()
        }
        _ => soup(rng, length),
    }
}

/// Tokens in random order, which now and then make a good line.
fn soup(rng: &mut Rng, length: usize) -> Vec<u8> {
    const PIECES: [&str; 24] = [
        "(pad 376)\n",
        "(run 1)\n",
        "(domain 0 (share 500) (may))\n",
        "(domain 1 (share 500) (may 0))\n",
        "(window 0 (length 5))\n",
        "(op 0 (read 3))\n",
        "(",
        ")",
        "(",
        ")",
        " ",
        "\n",
        "(domain 0",
        "(share 1000)",
        "(may",
        "(window 0",
        "(op 0",
        "(length 1))",
        " 0",
        " 7",
        " 8",
        " 376",
        " 12345678901",
        "(send 1 2))",
    ];
    let mut text = Vec::new();
    while text.len() < length {
        text.extend(rng.pick(&PIECES).bytes());
    }
    text
}
