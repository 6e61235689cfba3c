//! "The numbered table": rows that nothing tells apart become one, by marking the pairs that something does tell apart.
use crate::nodes::SetRows;
use crate::Table;

pub fn smallest(rows: &SetRows) -> Table {
    let n = rows.marks.len();
    let mut apart = vec![false; n * n];
    let mut before = vec![vec![]; n];
    for (q, cells) in rows.cells.iter().enumerate() {
        for (b, &r) in cells.iter().enumerate() {
            before[r as usize].push((b, q));
        }
    }
    for list in &mut before {
        list.sort_unstable();
    }
    let mut todo = vec![];
    let mark = |apart: &mut Vec<bool>, todo: &mut Vec<(usize, usize)>, p: usize, q: usize| {
        if !apart[n * p + q] {
            apart[n * p + q] = true;
            apart[n * q + p] = true;
            todo.push((p, q));
        }
    };
    for p in 0..n {
        for q in 0..p {
            if rows.marks[p] != rows.marks[q] {
                mark(&mut apart, &mut todo, p, q);
            }
        }
    }
    while let Some((p, q)) = todo.pop() {
        // the rows that come to p and to q on one byte
        let (mut i, mut j) = (0, 0);
        let (a, b) = (&before[p], &before[q]);
        while i < a.len() && j < b.len() {
            let byte = a[i].0.max(b[j].0);
            while i < a.len() && a[i].0 < byte {
                i += 1;
            }
            while j < b.len() && b[j].0 < byte {
                j += 1;
            }
            if i == a.len() || j == b.len() || a[i].0 != byte || b[j].0 != byte {
                continue;
            }
            let (i0, j0) = (i, j);
            while i < a.len() && a[i].0 == byte {
                i += 1;
            }
            while j < b.len() && b[j].0 == byte {
                j += 1;
            }
            for &(_, x) in &a[i0..i] {
                for &(_, y) in &b[j0..j] {
                    if x != y {
                        mark(&mut apart, &mut todo, x, y);
                    }
                }
            }
        }
    }
    let least: Vec<usize> = (0..n).map(|q| (0..=q).find(|&p| p == q || !apart[n * p + q]).unwrap()).collect();

    // the numbering, from the list
    let mut list = vec![least[0]];
    if least[1] != least[0] {
        list.push(least[1]);
    }
    let mut number = vec![usize::MAX; n];
    for (k, &q) in list.iter().enumerate() {
        number[q] = k;
    }
    let mut k = 0;
    while k < list.len() {
        for b in 0..256 {
            let r = least[rows.cells[list[k]][b] as usize];
            if number[r] == usize::MAX {
                number[r] = list.len();
                list.push(r);
            }
        }
        k += 1;
    }
    Table {
        rows: list.len(),
        head: number[least[1]],
        marks: list.iter().map(|&q| rows.marks[q]).collect(),
        cells: list.iter().flat_map(|&q| rows.cells[q].iter().map(|&r| number[least[r as usize]] as u16)).collect(),
    }
}
