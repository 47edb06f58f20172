//! The meaning of a problem's root, from its bytes and by document 01's section on the logic:
//! nothing here knows of elimination, ranges or places.

/// The nodes of a well-formed problem: op, symbol and operands.
pub fn nodes(problem: &[u8]) -> impl Iterator<Item = (u8, u8, [usize; 3])> + '_ {
    let symbols = usize::from(problem[5]);
    problem[8 + symbols..].chunks_exact(8).map(|node| {
        let operand = |at| usize::from(u16::from_le_bytes([node[at], node[at + 1]]));
        (node[0], node[1], [operand(2), operand(4), operand(6)])
    })
}

/// The arity of a symbol.
pub fn arity(problem: &[u8], symbol: u8) -> usize {
    usize::from(problem[8 + usize::from(symbol)] % 16)
}

/// What a node's operands must be: terms or not, as many as it uses.
pub fn takes(problem: &[u8], op: u8, symbol: u8) -> &'static [bool] {
    match op {
        0 | 6 => &[true; 3][..arity(problem, symbol)],
        1 => &[false, true, true],
        2 => &[true, true],
        3 => &[false],
        4 | 5 => &[false, false],
        9 => &[false, false, false],
        _ => &[],
    }
}

/// Which nodes of a well-formed problem others take.
pub fn taken(problem: &[u8]) -> Vec<bool> {
    let all: Vec<_> = nodes(problem).collect();
    let mut taken = vec![false; all.len()];
    for (op, symbol, operands) in all {
        let used = takes(problem, op, symbol).len();
        operands[..used].iter().for_each(|&at| taken[at] = true);
    }
    taken
}

/// Which nodes of a well-formed problem a root reaches. Operands are earlier, so that one way back
/// over the nodes finds them all.
pub fn reached(problem: &[u8], root: usize) -> Vec<bool> {
    let all: Vec<_> = nodes(problem).collect();
    let mut reached = vec![false; all.len()];
    reached[root] = true;
    for (i, (op, symbol, operands)) in all.into_iter().enumerate().rev() {
        if reached[i] {
            let used = takes(problem, op, symbol).len();
            operands[..used].iter().for_each(|&at| reached[at] = true);
        }
    }
    reached
}

/// Whether a root of a well-formed problem is true, where `meaning` gives the value of a symbol
/// for its arguments; true is 1 and false 0.
pub fn is_true(problem: &[u8], root: usize, mut meaning: impl FnMut(u8, &[u64]) -> u64) -> bool {
    let mut values: Vec<u64> = Vec::new();
    for (op, symbol, [a, b, c]) in nodes(problem) {
        let value = |at: usize| values[at];
        let truth = |at: usize| values[at] == 1;
        let value = match op {
            0 | 6 => {
                let arguments = [a, b, c].map(|at| values.get(at).copied().unwrap_or(0));
                meaning(symbol, &arguments[..arity(problem, symbol)])
            }
            1 | 9 if truth(a) => value(b),
            1 | 9 => value(c),
            2 => u64::from(value(a) == value(b)),
            3 => u64::from(!truth(a)),
            4 => u64::from(truth(a) && truth(b)),
            5 => u64::from(truth(a) || truth(b)),
            7 => 1,
            8 => 0,
            _ => unreachable!("a well-formed problem has no op {op}"),
        };
        values.push(value);
    }
    values[root] == 1
}

/// Whether the root is true by a witness's tables; what no row lists is 0 or false.
pub fn is_true_by(problem: &[u8], root: usize, witness: &[u8]) -> bool {
    assert_eq!(witness[..5], *b"EQW\x01\x00", "the witness's start");
    let rows: Vec<&[u8]> = witness[6..].chunks(5).collect();
    assert_eq!(rows.len(), usize::from(witness[5]), "the count of rows");
    for row in &rows {
        let same = |other: &&&[u8]| other[..4] == row[..4];
        let mut alike = rows.iter().filter(same);
        assert!(alike.all(|other| other[4] == row[4]), "two values");
        let mut unused = row[1 + arity(problem, row[0])..4].iter();
        assert!(unused.all(|&value| value == 0), "an unused argument");
    }
    is_true(problem, root, |symbol, arguments| {
        let listed = |row: &&&[u8]| {
            let values = row[1..].iter().map(|&value| u64::from(value));
            row[0] == symbol && values.take(arguments.len()).eq(arguments.iter().copied())
        };
        rows.iter().find(listed).map_or(0, |row| u64::from(row[4]))
    })
}

/// Whether the root is true where every symbol means some function that the seed chooses, with
/// values below `size`.
pub fn is_true_at_random(problem: &[u8], root: usize, seed: u64, size: u64) -> bool {
    is_true(problem, root, |symbol, arguments| {
        let mut mixed = seed ^ u64::from(symbol) << 32;
        for argument in arguments {
            mixed = (mixed ^ argument).wrapping_mul(0x9e37_79b9_7f4a_7c15);
            mixed ^= mixed >> 29;
        }
        mixed = mixed.wrapping_mul(0xbf58_476d_1ce4_e5b9) >> 33;
        let is_predicate = problem[8 + usize::from(symbol)] >= 16;
        mixed % if is_predicate { 2 } else { size }
    })
}

/// How many nodes the function-free table of a root has: one for each node that it reaches and
/// that is no repeat among those, and for two distinct applications of a symbol two for each
/// argument.
pub fn table_nodes(problem: &[u8], root: usize) -> usize {
    let mut distinct = Vec::new();
    let mut count = 0;
    let reached = reached(problem, root);
    for (node, _) in nodes(problem).zip(reached).filter(|(_, reached)| *reached) {
        let (op, symbol, _) = node;
        let is_application = op == 0 || op == 6;
        if is_application && distinct.contains(&node) {
            continue;
        }
        count += 1;
        if is_application {
            let earlier = distinct.iter().filter(|other| other.1 == symbol).count();
            count += earlier * 2 * arity(problem, symbol);
            distinct.push(node);
        }
    }
    count
}
