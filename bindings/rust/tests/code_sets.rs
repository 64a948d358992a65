//! Sets of codes: members, iteration and text.

use bavzhrono::{CodeSet, Mark};

fn codes_of(set: CodeSet) -> Vec<u32> {
    set.into_iter().collect()
}

#[test]
fn the_empty_set() {
    assert_eq!(codes_of(CodeSet::EMPTY), []);
    assert_eq!(CodeSet::EMPTY.to_string(), "{}");
    assert_eq!(CodeSet::default(), CodeSet::EMPTY);
}

#[test]
fn codes_come_in_ascending_order() {
    assert_eq!(codes_of(CodeSet(0b1_0110)), [1, 2, 4]);
    assert_eq!(codes_of(CodeSet(1 << 63 | 1)), [0, 63]);
    assert_eq!(codes_of(CodeSet(u64::MAX)), (0..64).collect::<Vec<_>>());
}

#[test]
fn a_set_contains_just_its_codes() {
    let set = CodeSet(1 << 63 | 1 << 62 | 1);
    for code in 0..70 {
        assert_eq!(set.contains(code), [0, 62, 63].contains(&code));
    }
    assert!(!CodeSet(u64::MAX).contains(64));
    assert!(!CodeSet(u64::MAX).contains(u32::MAX));
}

#[test]
fn the_length_left_is_known() {
    let mut codes = CodeSet(0b1011).codes();
    assert_eq!(codes.len(), 3);
    codes.next();
    assert_eq!(codes.len(), 2);
    assert_eq!(codes.by_ref().count(), 2);
    assert_eq!((codes.len(), codes.next()), (0, None));
}

#[test]
fn a_for_loop_takes_a_set() {
    let mut sum = 0;
    for code in CodeSet(0b1011) {
        sum += code;
    }
    assert_eq!(sum, 4);
}

#[test]
fn sets_meet_in_a_common_code() {
    assert!(CodeSet(0b110).meets(CodeSet(0b011)));
    assert!(!CodeSet(0b100).meets(CodeSet(0b011)));
    assert!(!CodeSet::EMPTY.meets(CodeSet(u64::MAX)));
}

#[test]
fn sets_and_marks_as_text() {
    assert_eq!(CodeSet(2).to_string(), "{1}");
    assert_eq!(CodeSet(0x1d).to_string(), "{0, 2, 3, 4}");
    assert_eq!([Mark(0), Mark(1)].map(|mark| mark.to_string()), ["0", "1"]);
    assert!(Mark(1).may_be_schizophrenic() && !Mark(0).may_be_schizophrenic());
}
