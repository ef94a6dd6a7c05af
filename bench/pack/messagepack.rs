//! The yardstick: MessagePack into and out of a `serde_json::Value`. It reads a value from standard input, and decodes or
//! encodes it so often. The words are `decode` or `encode`, and how often. It prints nothing.
use std::io::Read;

fn main() {
    let words: Vec<String> = std::env::args().collect();
    let times: u32 = words[2].parse().unwrap();
    let mut bytes = Vec::new();
    std::io::stdin().read_to_end(&mut bytes).unwrap();
    let mut sum = 0;
    if words[1] == "decode" {
        for _ in 0..times {
            let value: serde_json::Value = rmp_serde::from_slice(&bytes).unwrap();
            std::hint::black_box(&value);
            sum += bytes.len();
        }
    } else {
        let value: serde_json::Value = rmp_serde::from_slice(&bytes).unwrap();
        for _ in 0..times {
            sum += std::hint::black_box(rmp_serde::to_vec(&value).unwrap()).len();
        }
    }
    assert_eq!(sum, times as usize * bytes.len());
}
