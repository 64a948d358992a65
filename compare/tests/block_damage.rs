//! Every byte of a block changed to every value: the block is passed over, but where the
//! change is from 0 to 255 or back and nothing but the sums could tell.

use compare::blocks::BLOCK;
use compare::support::block_files::{other_bytes, to_damage};
use compare::support::blocks::{
    sealed, used, with_byte, Bytes, Head, CHECKS_AT, CONTENT_AT, PARTS_AT, USED_AT,
};
use compare::{fetch, part};

/// Whether the block is good with the numbers that it now names.
fn is_seen(block: &Bytes) -> bool {
    let head = Head::of(block);
    let content = part(block, head.program, head.edition, head.part);
    if content.is_empty() {
        return false;
    }
    assert_eq!(content, &block[CONTENT_AT..][..used(block).into()]);
    let mut table = [200; 2048];
    let answer = fetch(block, head.program, &mut table);
    let number = answer.map_or_else(|refusal| refusal.number, |_| 0);
    match (head.part, head.parts) {
        (0, 1) => assert_eq!((number, &table[..content.len()]), (0, content)),
        _ => assert_eq!((number, table), (18, [200; 2048])),
    }
    true
}

/// Visits each byte of each block with other values for it.
fn every_change(other_bytes: fn(u8) -> Vec<u8>, mut visit: impl FnMut(&Bytes, usize, u8)) {
    for block in to_damage() {
        assert!(is_seen(&block));
        for at in 0..BLOCK {
            for byte in other_bytes(block[at]) {
                visit(&block, at, byte);
            }
        }
    }
}

fn all_others(byte: u8) -> Vec<u8> {
    (0..=255).filter(|&other| other != byte).collect()
}

/// The sums are modulo 255, and every byte before them counts at least once in the first.
/// So they tell all changes of one byte but those between 0 and 255. The numbers may be
/// any, and so may the content; a used length would be out of its range, or 0, and a
/// filler is looked at by itself. The stored sums are below 255.
#[test]
fn without_new_check_bytes() {
    let mut unseen = 0;
    every_change(all_others, |block, at, byte| {
        let end = CONTENT_AT + usize::from(used(block));
        let is_between_0_and_255 = [block[at], byte] == [0, 255] || [block[at], byte] == [255, 0];
        let is_free = at <= PARTS_AT || (CONTENT_AT..end).contains(&at);
        let is_unseen = is_between_0_and_255 && is_free;
        assert_eq!(
            is_seen(&with_byte(*block, at, byte)),
            is_unseen,
            "{at} {byte}"
        );
        unseen += usize::from(is_unseen);
    });
    println!("{unseen} changes are not seen");
    assert_eq!(unseen, 498);
}

/// Then only the used length and the filler can tell.
#[test]
fn with_new_check_bytes() {
    let mut good = [0; 2];
    every_change(
        |byte| other_bytes(byte).collect(),
        |block, at, byte| {
            let changed = sealed(with_byte(*block, at, byte));
            let end = CONTENT_AT + usize::from(used(&changed));
            let has_zeros = (end..CHECKS_AT).all(|place| changed[place] == 0);
            let is_good = end > CONTENT_AT && end <= CHECKS_AT && has_zeros;
            assert_eq!(is_seen(&changed), is_good, "{at} {byte}");
            let is_length = (USED_AT..CONTENT_AT).contains(&at);
            good[usize::from(is_length)] += usize::from(is_good);
        },
    );
    println!("{good:?} are good, the second with another used length");
    assert!(good[0] > 1000 && good[1] > 0);
}
