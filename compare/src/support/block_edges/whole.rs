//! Blocks for the same part, editions that are whole and others, several editions.

use super::{alone, block, block_of, blocks, full, table, BlockEdge};
use crate::blocks::CONTENT;
use crate::support::blocks::{
    stored, with_byte, CHECKS_AT, CONTENT_AT, PARTS_AT, PART_AT, PROGRAM,
};

pub fn edges() -> Vec<BlockEdge> {
    let mut edges = two_blocks_for_a_part();
    edges.extend(numbers_of_parts());
    edges.extend(parts_past_the_last());
    edges.extend(no_parts_and_255());
    edges.extend(missing_parts());
    edges.extend(parts_that_are_not_full());
    edges.extend(several_editions());
    edges.extend(higher_editions_that_do_not_serve());
    edges
}

fn two_blocks_for_a_part() -> Vec<BlockEdge> {
    let [long, short] = [block(0, 1, b"longer"), block(0, 1, b"short")];
    let parts = [block(0, 2, &full(1)), block(1, 2, b"b")];
    let other_first = block(0, 2, &full(2));
    let other_last = block(1, 2, b"other");
    vec![
        blocks("the later counts, short", &[long, short])
            .gives(1, b"short")
            .part((1, 0), 1, 5),
        blocks("the later counts, long", &[short, long])
            .gives(1, b"longer")
            .part((1, 0), 1, 6),
        blocks("the last of three counts", &[short, long, short])
            .gives(1, b"short")
            .part((1, 0), 2, 5),
        blocks("a later part 0", &[parts[0], parts[1], other_first])
            .gives(1, [full(2), b"b".to_vec()].concat())
            .part((1, 0), 2, CONTENT),
        blocks("a later part 1", &[parts[0], parts[1], other_last])
            .gives(1, [full(1), b"other".to_vec()].concat())
            .part((1, 1), 2, 5),
        blocks(
            "both parts twice",
            &[other_last, parts[0], parts[1], other_first],
        )
        .gives(1, [full(2), b"b".to_vec()].concat()),
        blocks(
            "a later one of another edition",
            &[short, block_of(0, 0, 1, b"no")],
        )
        .gives(1, b"short"),
    ]
}

fn numbers_of_parts() -> Vec<BlockEdge> {
    let [first, last] = [block(0, 2, &full(1)), block(1, 2, b"b")];
    let both = [full(1), b"b".to_vec()].concat();
    let single = block(0, 1, b"alone");
    vec![
        blocks(
            "a later part 0 names more",
            &[single, block(0, 2, &full(3))],
        )
        .refused(18)
        .part((1, 0), 1, CONTENT),
        blocks("a later part 0 names fewer", &[first, last, single])
            .gives(1, b"alone")
            .part((1, 1), 1, 1),
        blocks("an earlier part 0 names fewer", &[single, first, last]).gives(1, &both),
        blocks("part 1 names more", &[first, block(1, 3, b"b")])
            .refused(18)
            .part((1, 1), 1, 1),
        blocks("part 1 names fewer", &[first, block(1, 1, b"b")]).refused(18),
        blocks(
            "a later part 1 names more",
            &[first, last, block(1, 3, b"b")],
        )
        .refused(18)
        .part((1, 1), 2, 1),
        blocks(
            "an earlier part 1 names more",
            &[first, block(1, 3, b"b"), last],
        )
        .gives(1, &both),
    ]
}

fn parts_past_the_last() -> Vec<BlockEdge> {
    let [first, last] = [block(0, 2, &full(1)), block(1, 2, b"b")];
    let both = [full(1), b"b".to_vec()].concat();
    vec![
        blocks("a part past the last", &[first, last, block(2, 2, b"c")])
            .gives(1, &both)
            .part((1, 2), 2, 1),
        blocks(
            "a part far past the last",
            &[block(255, 2, b"c"), first, last],
        )
        .gives(1, &both)
        .part((1, 255), 0, 1),
        blocks(
            "a part past the last names more",
            &[first, last, block(2, 3, b"c")],
        )
        .gives(1, &both),
    ]
}

fn no_parts_and_255() -> Vec<BlockEdge> {
    let single = block(0, 1, b"alone");
    vec![
        blocks("part 0 names none", &[block(0, 0, b"a")])
            .refused(18)
            .part((1, 0), 0, 1),
        blocks("a later part 0 names none", &[single, block(0, 0, b"a")]).refused(18),
        blocks(
            "part 0 names 255",
            &[block(0, 255, &full(1)), block(254, 255, b"z")],
        )
        .refused(18)
        .part((1, 254), 1, 1),
        blocks(
            "255 for 0 parts",
            &[with_byte(block(0, 0, b"a"), PARTS_AT, 255)],
        )
        .refused(18),
        blocks("part 255 for 0", &[with_byte(single, PART_AT, 255)])
            .refused(18)
            .part((1, 255), 0, 5)
            .no_part(1, 0),
    ]
}

fn missing_parts() -> Vec<BlockEdge> {
    let [first, middle] = [block(0, 3, &full(1)), block(1, 3, &full(2))];
    let last = block(2, 3, b"c");
    let all = [full(1), full(2), b"c".to_vec()].concat();
    let bad = with_byte(middle, CONTENT_AT, 3);
    vec![
        blocks("in another order", &[last, first, middle]).gives(1, &all),
        blocks("in the other order", &[last, middle, first]).gives(1, &all),
        blocks("the first is missing", &[middle, last])
            .refused(18)
            .no_part(1, 0)
            .part((1, 2), 1, 1),
        blocks("the middle is missing", &[first, last])
            .refused(18)
            .no_part(1, 1),
        blocks("the last is missing", &[first, middle])
            .refused(18)
            .no_part(1, 2),
        blocks("the middle is bad", &[first, bad, last])
            .refused(18)
            .no_part(1, 1)
            .part((1, 2), 2, 1),
        blocks(
            "the middle is bad and stored again",
            &[first, bad, last, middle],
        )
        .gives(1, &all),
        blocks("the first twice for the middle", &[first, first, last]).refused(18),
    ]
}

fn parts_that_are_not_full() -> Vec<BlockEdge> {
    let short = vec![1; CONTENT - 1];
    let last = block(1, 2, b"b");
    let full_last = block(1, 2, &full(2));
    vec![
        blocks("a short part 0", &[block(0, 2, &short), last])
            .refused(18)
            .part((1, 0), 0, CONTENT - 1),
        blocks(
            "a short middle",
            &[block(0, 3, &full(1)), block(1, 3, b"b"), block(2, 3, b"c")],
        )
        .refused(18),
        blocks("a full last part", &[block(0, 2, &full(1)), full_last])
            .gives(1, [full(1), full(2)].concat()),
        blocks(
            "a short part 0, stored again",
            &[block(0, 2, &short), last, block(0, 2, &full(1))],
        )
        .gives(1, [full(1), b"b".to_vec()].concat()),
        blocks(
            "a full part 0, then a short one",
            &[block(0, 2, &full(1)), last, block(0, 2, &short)],
        )
        .refused(18),
    ]
}

fn several_editions() -> Vec<BlockEdge> {
    let [low, high] = [alone(1, b"low"), alone(2, b"high")];
    vec![
        blocks("the higher edition first", &[high, low])
            .gives(2, b"high")
            .part((1, 0), 1, 3),
        blocks("the higher edition last", &[low, high]).gives(2, b"high"),
        blocks("edition 0", &[alone(0, b"zero")])
            .gives(0, b"zero")
            .part((0, 0), 0, 4),
        blocks(
            "editions 0 and 65535",
            &[alone(65535, b"last"), alone(0, b"zero")],
        )
        .gives(65535, b"last"),
        blocks(
            "all around 32768",
            &[alone(32767, b"a"), alone(32768, b"b"), alone(32766, b"c")],
        )
        .gives(32768, b"b"),
    ]
}

/// There is a lower one, which serves only if the higher one is not whole.
fn higher_editions_that_do_not_serve() -> Vec<BlockEdge> {
    let long = |edition: u16| stored(PROGRAM, edition, &table(2049));
    let [low, high] = [alone(1, b"low"), alone(2, b"high")];
    let first = block_of(2, 0, 2, &full(1));
    let lacking = long(3)[..4].to_vec();
    vec![
        blocks("the higher edition lacks a part", &[low, first])
            .gives(1, b"low")
            .part((2, 0), 1, CONTENT),
        blocks(
            "the parts of two editions",
            &[low, first, block_of(3, 1, 2, b"b")],
        )
        .gives(1, b"low"),
        blocks(
            "the higher edition is bad",
            &[low, with_byte(high, CHECKS_AT, 255)],
        )
        .gives(1, b"low")
        .no_part(2, 0),
        blocks(
            "the higher edition is too long",
            &[long(2), vec![low]].concat(),
        )
        .refused(1)
        .part((1, 0), 5, 3)
        .part((2, 4), 4, 41),
        blocks(
            "the lower edition is too long",
            &[long(1), vec![high]].concat(),
        )
        .gives(2, b"high"),
        blocks(
            "the highest lacks a part, the next is too long",
            &[lacking, long(2), vec![low]].concat(),
        )
        .refused(1),
    ]
}
