//! Files and tables of all lengths, and files of several programs.

use super::{alone, block, block_of, blocks, edge, full, table, BlockEdge};
use crate::blocks::{BLOCK, CONTENT, MOST_BLOCKS};
use crate::support::blocks::{sealed, stored, with_byte, PROGRAM, PROGRAM_AT};

pub fn edges() -> Vec<BlockEdge> {
    let mut edges = lengths_of_tables();
    edges.extend(lengths_of_files());
    edges.extend(numbers_of_blocks());
    edges.extend(byte_order());
    edges.extend(several_programs());
    edges.extend(parts_of_two_programs());
    edges
}

fn lengths_of_tables() -> Vec<BlockEdge> {
    let within = [
        1, 2, 255, 256, 501, 502, 503, 1003, 1004, 1005, 1506, 2008, 2009, 2047, 2048,
    ];
    let within = within.map(|length| of_length(length).gives(1, table(length)));
    let above = [2049, 2510, 2511, 3012, MOST_BLOCKS * CONTENT];
    let above = above.map(|length| of_length(length).refused(1));
    let zeros = [1, 502, 503].map(|length| {
        let zeros = vec![0; length];
        let name = format!("a table of {length} zeros");
        blocks(name, &stored(PROGRAM, 1, &zeros)).gives(1, zeros)
    });
    within.into_iter().chain(above).chain(zeros).collect()
}

/// With its last part, and none after it.
fn of_length(length: usize) -> BlockEdge {
    let blocks = stored(PROGRAM, 1, &table(length));
    let last = blocks.len() - 1;
    super::blocks(format!("a table of {length} bytes"), &blocks)
        .part((1, last as u8), last, length - last * CONTENT)
        .no_part(1, last as u8 + 1)
}

fn lengths_of_files() -> Vec<BlockEdge> {
    let file = stored(PROGRAM, 1, &table(600)).concat();
    let mut edges = vec![
        edge("an empty file", []).refused(18).no_part(1, 0),
        edge("the last block lost", &file[..BLOCK])
            .refused(18)
            .part((1, 0), 0, CONTENT),
    ];
    for length in [1, 511, 513, 1023] {
        let name = format!("a file of {length} bytes");
        edges.push(edge(name, &file[..length]).refused(17).no_part(1, 0));
    }
    let longer = [&file[..], &[0]].concat();
    edges.push(edge("a byte too many", longer).refused(17).no_part(1, 0));
    edges
}

fn numbers_of_blocks() -> Vec<BlockEdge> {
    let others = |count: usize| vec![block_of(0, 1, 1, b"other"); count];
    let with_last = |count: usize| [others(count - 1), vec![block(0, 1, b"last")]].concat();
    let with_first = |count: usize| [vec![block(0, 1, b"first")], others(count - 1)].concat();
    let mut cut = with_first(65).concat();
    cut.pop();
    vec![
        blocks("the last of 63 blocks", &with_last(63))
            .gives(1, b"last")
            .part((1, 0), 62, 4),
        blocks("the last of 64 blocks", &with_last(64))
            .gives(1, b"last")
            .part((1, 0), 63, 4)
            .part((0, 1), 62, 5),
        blocks("the first of 64 blocks", &with_first(64))
            .gives(1, b"first")
            .part((1, 0), 0, 5),
        blocks("65 blocks", &with_first(65))
            .refused(17)
            .no_part(1, 0),
        edge("65 blocks but for a byte", cut)
            .refused(17)
            .no_part(1, 0),
    ]
}

/// The higher number is the other one if the bytes of each are exchanged.
fn byte_order() -> Vec<BlockEdge> {
    let [low, high] = [alone(255, b"low"), alone(256, b"high")];
    let used_258 = block(0, 1, &table(258));
    vec![
        blocks("editions 255 and 256", &[low, high])
            .gives(256, b"high")
            .part((255, 0), 0, 3)
            .part((256, 0), 1, 4)
            .no_part(1, 0)
            .no_part(65280, 0),
        blocks("program 513 is another", &[block(0, 1, b"258")])
            .gives(1, b"258")
            .refused_of(513, 18),
        blocks("a used length of 258", &[used_258])
            .gives(1, table(258))
            .part((1, 0), 0, 258),
    ]
}

fn several_programs() -> Vec<BlockEdge> {
    let of = |program: u16, edition: u16, content: &[u8]| stored(program, edition, content)[0];
    let mixed = [
        of(PROGRAM, 1, b"ours"),
        of(0, 9, b"zero"),
        of(65535, 9, b"last"),
        of(PROGRAM + 1, 9, b"next"),
        of(PROGRAM - 1, 0, b"before"),
    ];
    let changed = with_byte(of(0, 1, b"a"), PROGRAM_AT, 255);
    vec![
        blocks("other programs have higher editions", &mixed)
            .gives(1, b"ours")
            .gives_of(0, 9, b"zero")
            .gives_of(65535, 9, b"last")
            .gives_of(PROGRAM + 1, 9, b"next")
            .gives_of(PROGRAM - 1, 0, b"before")
            .refused_of(1, 18)
            .no_part(9, 0),
        blocks("program 255 for 0", &[changed])
            .gives_of(255, 1, b"a")
            .refused_of(0, 18),
    ]
}

fn parts_of_two_programs() -> Vec<BlockEdge> {
    let ours = stored(PROGRAM, 1, &table(1100)).into_iter();
    let theirs = stored(PROGRAM + 1, 1, &table(1500));
    let by_turns = ours.zip(theirs).flat_map(|(ours, theirs)| [theirs, ours]);
    let of_the_next = sealed(with_byte(block(1, 2, b"b"), PROGRAM_AT, 3));
    vec![
        blocks("two programs by turns", &by_turns.collect::<Vec<_>>())
            .gives(1, table(1100))
            .gives_of(PROGRAM + 1, 1, table(1500)),
        blocks(
            "a part of the next program",
            &[block(0, 2, &full(1)), of_the_next],
        )
        .refused(18)
        .refused_of(PROGRAM + 1, 18)
        .no_part(1, 1),
    ]
}
