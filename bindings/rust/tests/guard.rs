//! The guard as a user of the package meets it: the window's edges, the order of its
//! refusals, and what each call leaves.

use yegetmur::{Guard, Link, Refusal};

const FRESH: Link = Link {
    highest: 0,
    accepted: 0,
};

#[test]
fn a_default_link_is_fresh() {
    assert_eq!(Link::default(), FRESH);
}

#[test]
fn each_count_of_the_window_once() {
    let mut links = [FRESH; 3];
    let mut guard = Guard::new(&mut links);
    assert_eq!(guard.accept(1, 100), Ok(()));
    for count in (37..100).rev() {
        assert_eq!(guard.accept(1, count), Ok(()), "{count}");
        assert_eq!(guard.accept(1, count), Err(Refusal::Reuse), "{count}");
    }
    for count in 0..37 {
        assert_eq!(guard.accept(1, count), Err(Refusal::Age), "{count}");
    }
    let full = Link {
        highest: 100,
        accepted: u64::MAX,
    };
    assert_eq!(guard.links(), [FRESH, full, FRESH]);
}

#[test]
fn a_higher_count_moves_the_window() {
    for up in 0..=70 {
        let mut links = [FRESH];
        let mut guard = Guard::new(&mut links);
        assert_eq!(guard.accept(0, 1000), Ok(()));
        let again = guard.accept(0, 1000 + up);
        assert_eq!(again, if up == 0 { Err(Refusal::Reuse) } else { Ok(()) });
        let old = if up < 64 {
            Refusal::Reuse
        } else {
            Refusal::Age
        };
        assert_eq!(guard.accept(0, 1000), Err(old), "{up}");
    }
}

#[test]
fn count_does_not_wrap() {
    let mut links = [FRESH];
    let mut guard = Guard::new(&mut links);
    assert_eq!(guard.accept(0, u32::MAX), Ok(()));
    assert_eq!(guard.accept(0, 0), Err(Refusal::Age));
    assert_eq!(guard.accept(0, u32::MAX - 64), Err(Refusal::Age));
    assert_eq!(guard.accept(0, u32::MAX - 63), Ok(()));
    assert_eq!(guard.accept(0, u32::MAX), Err(Refusal::Reuse));
    assert_eq!(guard.rekey(0), Ok(()));
    assert_eq!(guard.links(), [FRESH]);
    assert_eq!(guard.accept(0, 0), Ok(()));
    assert_eq!(guard.accept(0, 0), Err(Refusal::Reuse));
}

#[test]
fn a_refusal_alters_nothing() {
    let odd = Link {
        highest: 5,
        accepted: u64::MAX,
    };
    let mut links = [odd; 2];
    let mut guard = Guard::new(&mut links);
    for at in [2, 3, usize::MAX] {
        assert_eq!(guard.accept(at, 5), Err(Refusal::Link));
        assert_eq!(guard.rekey(at), Err(Refusal::Link));
    }
    for count in 0..=5 {
        assert_eq!(guard.accept(0, count), Err(Refusal::Reuse));
    }
    assert_eq!(guard.links(), [odd; 2]);
    // Bits past `highest` stand for no COUNT: an accepted one leaves none of them.
    assert_eq!(guard.accept(1, 7), Ok(()));
    assert_eq!(guard.links()[0], odd);
    assert_eq!(guard.links()[1].accepted, 0b1111_1101);

    let mut none = Guard::new(&mut []);
    assert_eq!(none.accept(0, 0), Err(Refusal::Link));
    assert_eq!(none.rekey(0), Err(Refusal::Link));
}
