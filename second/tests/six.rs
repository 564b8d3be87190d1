//! Both ways in MP5 and MP6: points worked by hand from Figure 10-5 and Tables 10-17 and 10-19, and what is refused.

use second::run::State;
use second::six::{self, Content};

/// A state of a run that is three L1 frames old.
fn old(mode: u64) -> State {
    State {
        mode,
        half: 1,
        age: 3,
        reserved: 0,
    }
}

#[test]
fn p2_stands_behind_the_eight_p1_frames() {
    // Bit 0 of U stands in row 192 and column 360, and bit 20 in row 224 of the same column.
    for mode in [5, 6] {
        assert_eq!(six::find(mode, 192, 360), Ok((1, 0, 0)));
        assert_eq!(six::find(mode, 224, 360), Ok((1, 0, 20)));
    }
    // The last bit of U, bit 365,439, stands in row 71 and column 206.
    assert_eq!(six::find(5, 71, 206), Ok((5, 0, 273_279)));
    assert_eq!(six::find(6, 71, 206), Ok((5, 0, 181_119)));
    assert_eq!(six::find(1, 71, 206), Ok((1, 0, 365_439)));
}

#[test]
fn p1_prime_three_l1_frames_later() {
    // Mode, P1 frame and coded bit; row and column of the matrix of that frame.
    for (mode, frame, bit, row, column) in [
        (5, 0, 1, 32, 0),
        (5, 0, 8, 43, 11),
        (5, 5, 9_215, 21, 136),
        (6, 0, 1, 32, 36),
        (6, 0, 2, 32, 108),
        (6, 5, 18_431, 53, 244),
    ] {
        let there = six::locate_px(old(mode), 6, frame, bit);
        assert_eq!(there, Ok([3, frame, row, column]));
        let found = six::find_px(old(mode), 4, [frame, row, column]);
        assert_eq!(found, Ok(Content::Second([frame, bit])));
    }
    let young = State {
        half: 0,
        age: 2,
        ..old(6)
    };
    assert_eq!(
        six::find_px(young, 4, [7, 63, 287]),
        Ok(Content::DelayZeros)
    );
}

#[test]
fn refusals() {
    let of = |refusal: second::run::Refusal| (refusal.number, refusal.place);
    assert_eq!(six::find(4, 0, 0).map_err(of), Err((1, 0)));
    assert_eq!(six::locate(1, 5, 0, 0).map_err(of), Err((3, 0)));
    assert_eq!(six::locate(5, 1, 8, 0).map_err(of), Err((3, 1)));
    assert_eq!(six::locate(5, 1, 7, 11_520).map_err(of), Err((3, 2)));
    assert_eq!(six::find_px(old(3), 4, [0; 3]).map_err(of), Err((2, 0)));
    assert_eq!(six::find_px(old(6), 3, [0; 3]).map_err(of), Err((3, 0)));
    assert_eq!(
        six::find_px(old(5), 4, [0, 0, 144]).map_err(of),
        Err((3, 3))
    );
    assert_eq!(six::locate_px(old(5), 4, 0, 0).map_err(of), Err((3, 0)));
}
