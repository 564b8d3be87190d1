//! Document 02, S-14: runs and the run of their sums.

use second::commands;
use second::modes::Without;

const COUNT: u64 = 6;

/// S-14: the modulo 2 sum of buffers.
fn added(buffers: &[Vec<u8>]) -> Vec<u8> {
    let mut sum = Vec::new();
    commands::add(buffers, &mut sum).unwrap();
    sum
}

/// Sending: what a run of these numbers and frames sends.
fn sent(mode: u64, frames: &[u8]) -> Vec<u8> {
    let mut matrices = Vec::new();
    commands::send(
        mode,
        COUNT,
        Without::default(),
        &mut &frames[..],
        &mut matrices,
    )
    .unwrap();
    matrices
}

/// S-14: whether the run of the sums of so many drawn runs sends the sum of what they send.
fn sums_are_sent(mode: u64, runs: u64) -> bool {
    let drawn: Vec<Vec<u8>> = (0..runs)
        .map(|run| {
            let mut frames = Vec::new();
            commands::draw(
                100 * mode + run,
                mode,
                COUNT,
                Without::default(),
                &mut frames,
            )
            .unwrap();
            frames
        })
        .collect();
    let signals: Vec<Vec<u8>> = drawn.iter().map(|frames| sent(mode, frames)).collect();
    sent(mode, &added(&drawn)) == added(&signals)
}

/// S-14: three runs, and any odd number, in every mode.
#[test]
fn an_odd_number() {
    for mode in [1, 2, 3, 11, 5, 6] {
        for runs in [1, 3, 5] {
            assert!(sums_are_sent(mode, runs), "{runs} runs in MP{mode}");
        }
    }
}

/// S-14: of an even number the scrambling sequence cancels.
#[test]
fn an_even_number() {
    for mode in [1, 2, 3, 11, 5, 6] {
        assert!(!sums_are_sent(mode, 2), "MP{mode}");
    }
}
