//! The program on generated messages, intact and damaged.

use compare_listing::{compared, program};
use generator::body_cases::body_case;

#[test]
fn generated_messages() {
    const SEEDS: u64 = 4_000;
    let mut accepted = 0;
    for seed in 0..SEEDS {
        let case = body_case(seed);
        // The program reads at 0, so what stands before the header goes.
        let start = case.message.len().min(case.start as usize);
        let message = &case.message[start..];
        let text = reference::listing(message);
        accepted += u64::from(text.starts_with(b"header\t"));
        assert!(program(message) == text, "seed {seed}");
    }
    assert!(accepted > SEEDS / 10 && accepted < SEEDS);
    compared(SEEDS, "listings of generated messages");
}
