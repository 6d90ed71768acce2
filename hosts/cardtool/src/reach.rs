//! Who gets at what through others. "A package reaches a service if it has a met call on it, or if it reaches some service
//! of a package that reaches it" (R-5).

use crate::tables::{Bit, Tables};
use std::collections::{BTreeMap, VecDeque};

/// For each package that reaches the service, a shortest chain of met calls: each step calls a service of the package
/// whose step is the next, and the last step calls the service itself. By the number of the first caller.
pub fn chains(tables: &Tables, package: usize, service: usize) -> Vec<Vec<Bit>> {
    let mut found: BTreeMap<usize, Vec<Bit>> = BTreeMap::new();
    let on_it = tables.calls.iter().filter(|call| (call.callee, call.service) == (package, service));
    let mut next: VecDeque<Vec<Bit>> = on_it.map(|call| vec![*call]).collect();
    while let Some(chain) = next.pop_front() {
        let first = chain[0].caller;
        if found.contains_key(&first) {
            continue;
        }
        let before = tables.calls.iter().filter(|call| call.callee == first);
        next.extend(before.map(|call| [&[*call], &chain[..]].concat()));
        found.insert(first, chain);
    }
    found.into_values().collect()
}

/// Whether the row's package reaches some service of the column's, as R-5's table has it.
pub fn table(tables: &Tables) -> Vec<Vec<bool>> {
    let count = tables.packages.len();
    let mut reaches = vec![vec![false; count]; count];
    for call in &tables.calls {
        reaches[call.caller][call.callee] = true;
    }
    for through in 0..count {
        for row in 0..count {
            for column in 0..count {
                reaches[row][column] |= reaches[row][through] && reaches[through][column];
            }
        }
    }
    reaches
}
