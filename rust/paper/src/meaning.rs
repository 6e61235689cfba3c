//! "What a pattern matches", by the meaning alone.
use crate::pattern::Tree;

/// Which ends each start has: `ends[e]` says whether (s, e) matches for some s of `from`.
pub fn ends(tree: &Tree, text: &[u8], from: &[bool]) -> Vec<bool> {
    let n = text.len();
    let mut to = vec![false; n + 1];
    match tree {
        Tree::Nothing => to.copy_from_slice(from),
        Tree::Bytes(set) => {
            for s in 0..n {
                to[s + 1] = from[s] && set[text[s] as usize];
            }
        }
        Tree::Head => to[0] = from[0],
        Tree::Tail => to[n] = from[n],
        Tree::Row(row) => {
            to.copy_from_slice(from);
            for piece in row {
                to = ends(piece, text, &to);
            }
        }
        Tree::Either(all) => {
            for branch in all {
                for (t, e) in to.iter_mut().zip(ends(branch, text, from)) {
                    *t |= e;
                }
            }
        }
        Tree::Star(x) => to = times(x, text, from, 0, None),
        Tree::Plus(x) => to = times(x, text, from, 1, None),
        Tree::Maybe(x) => to = times(x, text, from, 0, Some(1)),
        Tree::Count(x, m, n) => to = times(x, text, from, *m, *n),
    }
    to
}

/// From `least` to `most` parts.
fn times(x: &Tree, text: &[u8], from: &[bool], least: u32, most: Option<u32>) -> Vec<bool> {
    let mut here = from.to_vec();
    for _ in 0..least {
        here = ends(x, text, &here);
    }
    let mut all = here.clone();
    let mut k = least;
    while most.is_none_or(|n| k < n) {
        here = ends(x, text, &here);
        let before = all.clone();
        for (a, h) in all.iter_mut().zip(&here) {
            *a |= h;
        }
        if most.is_none() && all == before {
            break;
        }
        k += 1;
    }
    all
}

/// The ends of matches from s.
pub fn from(tree: &Tree, text: &[u8], s: usize) -> Vec<usize> {
    let mut at = vec![false; text.len() + 1];
    at[s] = true;
    let to = ends(tree, text, &at);
    (0..=text.len()).filter(|&e| to[e]).collect()
}
