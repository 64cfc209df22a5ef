//! Faults in the chain of checks, each put on top of the reference.

use build::{check_of, due_check, fnv1a_from, set_check, start_of, BLOCK, CHECK_START};

/// What a machine takes for the start of a block's check.
#[derive(Clone, Copy, Debug, PartialEq, Eq)]
pub enum Chain {
    /// The check of the block before: no fault.
    Right,
    /// 2166136261 in every block, as before request b. Packing that never goes on from its start
    /// does just that.
    EachAlone,
    /// The check two blocks before.
    TwoBefore,
    /// The check of the block before, but every four blocks 2166136261.
    AnewEveryFour,
    /// The check of the block before, but 2166136261 in the first block behind the last whole four.
    AnewBehindFours,
    /// The check of the block before, but 2166136261 in the last block.
    LastAlone,
    /// The check of block 0.
    FromBlockZero,
    /// The check of the block before, its highest byte first.
    HighestFirst,
    /// The hash of the whole block before, over its check too.
    OverTheCheck,
    /// The check of the block before, or 2166136261: either will do.
    TakesOld,
    /// The same every four blocks.
    TakesOldEveryFour,
    /// Any number every four blocks: what is joined there isn't noticed.
    BlindEveryFour,
}

impl Chain {
    /// Those that take one other number.
    pub const OTHER: [Chain; 8] = [
        Chain::EachAlone,
        Chain::TwoBefore,
        Chain::AnewEveryFour,
        Chain::AnewBehindFours,
        Chain::LastAlone,
        Chain::FromBlockZero,
        Chain::HighestFirst,
        Chain::OverTheCheck,
    ];

    /// Those that take the right number, and others too.
    pub const LENIENT: [Chain; 3] = [
        Chain::TakesOld,
        Chain::TakesOldEveryFour,
        Chain::BlindEveryFour,
    ];

    /// The numbers from which the check of a block may start.
    fn starts(self, blocks: &[&[u8]], number: usize) -> Vec<u32> {
        let Some(before) = number.checked_sub(1).map(|before| check_of(blocks[before])) else {
            return vec![CHECK_START];
        };
        let unless = |anew: bool| if anew { CHECK_START } else { before };
        let fourth = number.is_multiple_of(4);
        let start = match self {
            Chain::TakesOld => CHECK_START,
            Chain::TakesOldEveryFour if fourth => CHECK_START,
            Chain::BlindEveryFour if fourth => start_of(blocks[number]),
            Chain::Right | Chain::TakesOldEveryFour | Chain::BlindEveryFour => before,
            Chain::EachAlone => CHECK_START,
            Chain::TwoBefore => match number.checked_sub(2) {
                Some(two) => check_of(blocks[two]),
                None => CHECK_START,
            },
            Chain::AnewEveryFour => unless(fourth),
            Chain::AnewBehindFours => unless(number == blocks.len() / 4 * 4),
            Chain::LastAlone => unless(number + 1 == blocks.len()),
            Chain::FromBlockZero => check_of(blocks[0]),
            Chain::HighestFirst => before.swap_bytes(),
            Chain::OverTheCheck => fnv1a_from(before, &before.to_le_bytes()),
        };
        match Chain::LENIENT.contains(&self) {
            true => vec![before, start],
            false => vec![start],
        }
    }

    /// The blocks, some of them changed, with checks that are right exactly where this machine takes
    /// them for right before the change.
    pub(crate) fn rewritten(self, stream: &mut [u8], change: impl Fn(usize, &mut [u8])) {
        let found = stream.to_vec();
        let found: Vec<&[u8]> = found.chunks_exact(BLOCK).collect();
        let mut start = CHECK_START;
        for (number, block) in stream.chunks_exact_mut(BLOCK).enumerate() {
            let starts = self.starts(&found, number);
            let check = check_of(block);
            let right = starts.iter().any(|&start| due_check(block, start) == check);
            change(number, block);
            let due = due_check(block, start);
            start = if right { due } else { !due };
            set_check(block, start);
        }
    }

    /// The blocks with the checks that this machine gives them.
    pub(crate) fn packed(self, stream: &mut [u8]) {
        for number in 0..stream.len() / BLOCK {
            let blocks: Vec<&[u8]> = stream.chunks_exact(BLOCK).collect();
            let check = due_check(blocks[number], self.starts(&blocks, number)[0]);
            set_check(&mut stream[number * BLOCK..], check);
        }
    }
}
