//! The jobs of examples/ that are refused, each for one thing that is easily done
//! wrong by hand.

use crate::by_hand::search;
use crate::examples_parts::{even_file, filled, record, rounds};
use crate::job::Job;

/// Call 7 stands in page 2, which has pattern 1; its pseudo key begins with 0.
pub fn misfiled() -> Job {
    let mut file = filled(even_file(1, 3, 2, 1), &[(4, 50), (9, 90), (1, 30)]);
    file.page_mut(2)
        .records
        .extend([record(7, 15), record(8, 70)]);
    Job {
        file,
        operations: vec![search(7)],
        turns: rounds(&[0], 3),
    }
}

/// Call 256 stands before call 254. Its bytes are lower, the first ones first,
/// but not the number.
pub fn exchanged() -> Job {
    let mut file = filled(even_file(1, 3, 2, 1), &[(255, 30), (258, 70)]);
    file.page_mut(1).records = vec![record(256, 15), record(254, 90)];
    Job {
        file,
        operations: vec![search(254)],
        turns: rounds(&[0], 3),
    }
}

/// Page 2 has entries 2 and 3: pattern 1, a single bit. What stands there is 2,
/// binary 10, the number of the first entry that names it.
pub fn wide() -> Job {
    let mut file = filled(even_file(2, 2, 2, 1), &[(4, 50), (3, 70), (5, 20)]);
    file.page_mut(2).pattern = 2;
    Job {
        file,
        operations: vec![search(3)],
        turns: rounds(&[0], 3),
    }
}

/// Call 252 was taken out of page 1 by hand. 254 and 256 have moved up, and 256
/// also stands where it was before; the count is put right by an edit.
pub fn leftover() -> Job {
    let calls = [(254, 90), (256, 15), (255, 30), (258, 70)];
    let mut file = filled(even_file(1, 3, 2, 1), &calls);
    file.page_mut(1).records.push(record(256, 15));
    Job {
        file,
        operations: vec![search(256)],
        turns: rounds(&[0], 3),
    }
}
