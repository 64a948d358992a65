//! Good blocks, and blocks that are passed over.

use super::{block, blocks, full, table, BlockEdge};
use crate::blocks::BLOCK;
use crate::support::blocks::{
    sealed, with_byte, with_checks, with_used, Bytes, CHECKS_AT, CONTENT_AT, USED_AT,
};

pub fn edges() -> Vec<BlockEdge> {
    let mut edges = check_bytes();
    edges.extend(bytes_exchanged());
    edges.extend(check_bytes_of_255());
    edges.extend(used_lengths());
    edges.extend(fillers());
    edges
}

/// A block that is passed over: alone, before a good one, and after it.
fn passed_over(name: &str, bad: Bytes) -> Vec<BlockEdge> {
    let good = block(0, 1, b"good");
    vec![
        blocks(name, &[bad]).refused(18).no_part(1, 0),
        blocks(format!("{name}, then a good block"), &[bad, good])
            .gives(1, b"good")
            .part((1, 0), 1, 4),
        blocks(format!("{name}, after a good block"), &[good, bad])
            .gives(1, b"good")
            .part((1, 0), 0, 4),
    ]
}

fn check_bytes() -> Vec<BlockEdge> {
    let good = block(0, 1, b"content");
    let mut edges = Vec::new();
    for (name, at) in [("first", CHECKS_AT), ("second", CHECKS_AT + 1)] {
        let off_by_one = with_byte(good, at, good[at] + 1);
        edges.extend(passed_over(&format!("the {name} check byte"), off_by_one));
    }
    for checks in [[0, 0], [0, 254], [254, 0], [254, 254], [1, 1]] {
        let block = with_checks(good, checks);
        let name = format!("check bytes {checks:?}");
        let content = block[CONTENT_AT..][..7].to_vec();
        edges.push(blocks(name, &[block]).gives(1, content).part((1, 0), 0, 7));
    }
    edges
}

fn bytes_exchanged() -> Vec<BlockEdge> {
    let good = block(0, 1, b"content");
    let [mut checks, mut content] = [good; 2];
    checks.swap(CHECKS_AT, CHECKS_AT + 1);
    content.swap(CONTENT_AT, CONTENT_AT + 1);
    let mut edges = passed_over("check bytes exchanged", checks);
    edges.extend(passed_over("two bytes exchanged", content));
    // In the second sum these two count equally often, modulo 255.
    let mut far_apart = block(0, 1, &table(300));
    far_apart.swap(CONTENT_AT + 7, CONTENT_AT + 262);
    let content = far_apart[CONTENT_AT..][..300].to_vec();
    edges.push(blocks("two bytes exchanged that are 255 apart", &[far_apart]).gives(1, content));
    edges
}

/// No sum is 255, and where it is 0 this is no other way to say so.
fn check_bytes_of_255() -> Vec<BlockEdge> {
    let zeros = with_checks(block(0, 1, b"content"), [0, 0]);
    let first = with_byte(zeros, CHECKS_AT, 255);
    let second = with_byte(zeros, CHECKS_AT + 1, 255);
    let both = with_byte(first, CHECKS_AT + 1, 255);
    let mut edges = passed_over("255 for 0, first", first);
    edges.extend(passed_over("255 for 0, second", second));
    edges.extend(passed_over("255 for 0, both", both));
    // Neither sum can tell 0 and 255 in the content.
    let changed = with_byte(block(0, 1, &[0, 1, 2]), CONTENT_AT, 255);
    edges.push(blocks("255 for 0 in the content", &[changed]).gives(1, [255, 1, 2]));
    edges
}

fn used_lengths() -> Vec<BlockEdge> {
    let whole = block(0, 1, &full(7));
    let mut edges = Vec::new();
    for used in [0, 503, 504, 510, 511, 512, 1024, 65280, 65535] {
        let name = format!("used length {used}");
        edges.extend(passed_over(&name, with_used(whole, used)));
    }
    edges.extend(passed_over("nothing used", block(0, 1, &[])));
    edges.extend(passed_over("zeros alone", [0; BLOCK]));
    edges.extend(passed_over("255 alone", [255; BLOCK]));
    // A used length of 255 or 256 for 0 or 511 is not seen by the sums.
    let used_255 = block(0, 1, &[7; 255]);
    edges.extend(passed_over("0 for 255", with_byte(used_255, USED_AT, 0)));
    let used_256 = block(0, 1, &[7; 256]);
    edges.extend(passed_over(
        "511 for 256",
        with_byte(used_256, USED_AT, 255),
    ));
    edges
}

fn fillers() -> Vec<BlockEdge> {
    let good = block(0, 1, b"12345");
    let mut edges = Vec::new();
    for (name, at) in [
        ("right after the content", CONTENT_AT + 5),
        ("in the middle of the filler", 256),
        ("at the end of the filler", CHECKS_AT - 1),
    ] {
        edges.extend(passed_over(name, sealed(with_byte(good, at, 1))));
        // The sums don't see this one.
        let unseen = with_byte(good, at, 255);
        edges.extend(passed_over(&format!("255 {name}"), unseen));
    }
    let whole = block(0, 1, &full(1));
    edges.extend(passed_over("a filler of one byte", with_used(whole, 501)));
    let zeros = with_used(block(0, 1, b"1\0\0"), 1);
    edges.push(blocks("zeros after the used length", &[zeros]).gives(1, b"1"));
    edges
}
