//! Where blocks and their words stand in the work table.

pub const PUTS: usize = 0;
pub const TAKES: usize = 1;
pub const SUPER: usize = 2;
pub const LEFT: usize = 3;
pub const RIGHT: usize = 4;
pub const SIZE: usize = 5;
pub const NUMBER: usize = 6;
pub const BLOCK_WORDS: usize = 7;

/// By node number, how many blocks stand before the node's; the entry past the last node's, and
/// all after it, are the blocks of the whole table. The refusal's number if p or l is improper.
pub fn first_blocks(p: u32, l: u32) -> Result<[usize; 17], u32> {
    let height = match p {
        2 => 1,
        4 => 2,
        8 => 3,
        _ => return Err(1),
    };
    if !(1..=500).contains(&l) {
        return Err(2);
    }
    let mut first = [0; 17];
    for node in 1..16u32 {
        let level = node.ilog2();
        let blocks = if level <= height {
            (l << (height - level)) + 1
        } else {
            0
        };
        first[node as usize + 1] = first[node as usize] + blocks as usize;
    }
    Ok(first)
}
