//! Shapes of walks, and all small sheets over them.

use crate::random::Random;
use crate::sheet::{CROSS_PRODUCT, Sheet};

/// A step of a walk: a leaf, or a join of the leaves `low..middle` with
/// `middle..high`.
#[derive(Clone, Copy)]
pub enum Step {
    Leaf,
    Join { low: usize, middle: usize, high: usize },
}

/// All walks over the leaves `low..high`.
pub fn all_walks(low: usize, high: usize) -> Vec<Vec<Step>> {
    if high - low == 1 {
        return vec![vec![Step::Leaf]];
    }
    let mut walks = Vec::new();
    for middle in low + 1..high {
        for left in all_walks(low, middle) {
            for right in all_walks(middle, high) {
                let mut walk = left.clone();
                walk.extend(right);
                walk.push(Step::Join { low, middle, high });
                walks.push(walk);
            }
        }
    }
    walks
}

/// How a random walk splits its leaves.
#[derive(Clone, Copy)]
pub enum Split {
    LeftDeep,
    RightDeep,
    Anywhere,
}

/// Appends a walk over the leaves `low..high`.
pub fn grow_walk(walk: &mut Vec<Step>, low: usize, high: usize, split: Split, random: &mut Random) {
    if high - low == 1 {
        walk.push(Step::Leaf);
        return;
    }
    let middle = match split {
        Split::LeftDeep => high - 1,
        Split::RightDeep => low + 1,
        Split::Anywhere => random.between(low + 1, high - 1),
    };
    grow_walk(walk, low, middle, split, random);
    grow_walk(walk, middle, high, split, random);
    walk.push(Step::Join { low, middle, high });
}

/// A kind for a join and the columns of each of its predicates.
struct Choice {
    kind: u32,
    predicates: Vec<Vec<u32>>,
}

/// Every kind with every list of at most `most` predicates, where a predicate
/// has no columns, or one column of a leaf on each side.
fn choices(low: usize, middle: usize, high: usize, most: usize) -> Vec<Choice> {
    let mut single = vec![vec![]];
    for left in low..middle {
        single.extend((middle..high).map(|right| vec![left as u32, right as u32]));
    }
    let mut lists: Vec<Vec<Vec<u32>>> = vec![vec![]];
    let mut longest = lists.clone();
    for _ in 0..most {
        let longer = |list: &Vec<Vec<u32>>| {
            let list = list.clone();
            single.iter().map(move |one| [&list[..], std::slice::from_ref(one)].concat())
        };
        longest = longest.iter().flat_map(longer).collect();
        lists.extend(longest.clone());
    }
    let mut choices = vec![Choice { kind: CROSS_PRODUCT, predicates: vec![] }];
    for kind in 0..CROSS_PRODUCT {
        choices.extend(lists.iter().map(|list| Choice { kind, predicates: list.clone() }));
    }
    choices
}

/// The sheet of a walk: leaf n has the column n alone.
fn small_sheet(walk: &[Step], chosen: &[&Choice]) -> Sheet {
    const ROWS: [u32; 4] = [4, 8, 16, 3];
    const SELECTIVITIES: [u32; 3] = [32_768, 16_384, 65_536];
    let mut sheet = Sheet::default();
    let mut chosen = chosen.iter();
    for step in walk {
        match step {
            Step::Leaf => {
                let leaf = sheet.leaves();
                sheet.add_leaf(ROWS[leaf], &[leaf as u32]);
            }
            Step::Join { .. } => {
                let choice = chosen.next().expect("a choice for each join");
                let first = sheet.predicates.len();
                let predicates: Vec<(u32, &Vec<u32>)> = (choice.predicates.iter().enumerate())
                    .map(|(i, columns)| (SELECTIVITIES[(first + i) % 3], columns))
                    .collect();
                sheet.add_join(choice.kind, &predicates);
            }
        }
    }
    sheet
}

/// Which small sheets: leaves, predicates of a join at the most, and every
/// how many-th combination of choices.
pub struct Small {
    pub leaves: usize,
    pub most_predicates: usize,
    pub step: usize,
}

/// Calls `each` with the sheet of each combination of choices on each walk.
pub fn each_small_sheet(small: &Small, each: &mut dyn FnMut(&Sheet)) {
    for walk in all_walks(0, small.leaves) {
        let per_join: Vec<Vec<Choice>> = (walk.iter())
            .filter_map(|step| match *step {
                Step::Leaf => None,
                Step::Join { low, middle, high } => {
                    Some(choices(low, middle, high, small.most_predicates))
                }
            })
            .collect();
        let combinations: usize = per_join.iter().map(Vec::len).product();
        for mut number in (0..combinations).step_by(small.step) {
            let mut chosen = Vec::new();
            for choices in &per_join {
                chosen.push(&choices[number % choices.len()]);
                number /= choices.len();
            }
            each(&small_sheet(&walk, &chosen));
        }
    }
}
