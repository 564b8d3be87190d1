//! Document 02, S-4: places by hand.

use second::places::share_places;

/// The places that eight sources get.
fn shared(shares: [u8; 8], waiting: [u8; 8]) -> [u8; 16] {
    let mut places = [9; 16];
    share_places(shares, waiting, &mut places).unwrap();
    places
}

/// S-4: a place for each share, and no more messages than places.
#[test]
fn shares_alone() {
    assert_eq!(
        shared([2; 8], [9; 8]),
        [0, 0, 1, 1, 2, 2, 3, 3, 4, 4, 5, 5, 6, 6, 7, 7]
    );
}

/// S-4: six places are left over: one each to 0, 2 and 5, then again one each.
#[test]
fn leftovers_in_turn() {
    assert_eq!(
        shared([1, 4, 1, 4, 0, 0, 0, 0], [4, 4, 3, 4, 0, 5, 0, 0]),
        [0, 0, 0, 1, 1, 1, 1, 2, 2, 2, 3, 3, 3, 3, 5, 5]
    );
}

/// S-4: a share beyond the messages is left over, and idle where no message waits.
#[test]
fn idle_places() {
    let mut expected = [255; 16];
    expected[..3].copy_from_slice(&[3, 3, 6]);
    assert_eq!(
        shared([0, 0, 0, 16, 0, 0, 0, 0], [0, 0, 0, 2, 0, 0, 1, 0]),
        expected
    );
}

/// S-4: the refusals, the length first, and the list left alone.
#[test]
fn refusals() {
    for (length, share, number) in [(15, 17, 3), (17, 0, 3), (16, 17, 10), (16, 255, 10)] {
        let mut places = vec![7; length];
        let shares = [0, 0, 0, 0, 0, 0, 0, share];
        let refusal = share_places(shares, [9; 8], &mut places).unwrap_err();
        assert_eq!((refusal.number, refusal.place), (number, 0));
        assert_eq!(places, vec![7; length]);
    }
}
