//! Ranges: the components of the variables, their tops, and the product.

use super::check::Checked;
use super::eliminate::Table;
use super::node::Op;

/// The ranges of a function-free table.
#[derive(Debug)]
pub struct Ranges {
    /// For each variable its top: it ranges over 1 to that.
    pub tops: Vec<u8>,
    /// The number of places; 24! times 2^16 is well below 2^128.
    pub product: u128,
}

impl Ranges {
    /// The ranges of a problem's table.
    pub fn new(problem: &Checked, table: &Table) -> Self {
        let classes = components(problem.functions, table);
        let rank = |v: usize| classes[..=v].iter().filter(|&&c| c == classes[v]).count();
        let tops: Vec<u8> = (0..problem.functions).map(|v| rank(v) as u8).collect();
        let variables: u128 = tops.iter().map(|&top| u128::from(top)).product();
        let truths: u128 = (0..problem.predicates).map(|_| 2).product();
        Self {
            tops,
            product: variables * truths,
        }
    }
}

/// For each variable the name of its component; joined variables have the same name.
fn components(variables: usize, table: &Table) -> Vec<usize> {
    let mut classes: Vec<usize> = (0..variables).collect();
    let leaves = Leaves::new(table);
    for equation in table.nodes.iter().filter(|node| node.op == Op::Equal) {
        let [left, right, _] = equation.indices();
        for &u in leaves.of(left) {
            for &v in leaves.of(right) {
                link(&mut classes, usize::from(u), usize::from(v));
            }
        }
    }
    classes
}

/// The leaves of each node, one list after the other.
struct Leaves {
    lists: Vec<u8>,
    /// Where each list starts, and where the last one ends.
    starts: Vec<usize>,
}

impl Leaves {
    /// A leaf is listed once: choices of choices would else double their lists again and again.
    fn new(table: &Table) -> Self {
        let mut lists = Vec::with_capacity(table.nodes.len());
        let mut starts = Vec::with_capacity(table.nodes.len() + 1);
        for node in &table.nodes {
            let start = lists.len();
            starts.push(start);
            let [_, second, third] = node.indices();
            match node.op {
                Op::Apply => lists.push(node.symbol),
                Op::Choose => {
                    let both = (starts[second]..starts[second + 1])
                        .chain(starts[third]..starts[third + 1]);
                    for at in both {
                        let leaf = lists[at];
                        if !lists[start..].contains(&leaf) {
                            lists.push(leaf);
                        }
                    }
                }
                _ => {}
            }
        }
        starts.push(lists.len());
        Self { lists, starts }
    }

    fn of(&self, node: usize) -> &[u8] {
        &self.lists[self.starts[node]..self.starts[node + 1]]
    }
}

/// Makes one component of those of two variables: all that have v's name take u's.
fn link(classes: &mut [usize], u: usize, v: usize) {
    let (to, from) = (classes[u], classes[v]);
    if to != from {
        for class in classes.iter_mut().filter(|class| **class == from) {
            *class = to;
        }
    }
}

#[cfg(test)]
mod tests {
    use super::super::{check, eliminate};
    use super::*;
    use crate::problem::Problem;
    use crate::samples;

    fn ranges(problem: &Problem, root: usize) -> (Vec<u8>, u128) {
        let bytes = problem.bytes();
        let checked = check(&bytes, root).expect("accepted");
        let ranges = Ranges::new(&checked, &eliminate(&checked));
        (ranges.tops, ranges.product)
    }

    /// Row 5's tops, as docs/FORMAT.md works them out, and row 9's.
    #[test]
    fn rows() {
        assert_eq!(ranges(&samples::row(5), 7), (vec![1, 2, 1, 2], 4));
        assert_eq!(ranges(&samples::row(9), 4), (vec![1, 2], 4));
    }

    /// What a root does not reach links nothing: in row 5 x and y alone, and the p of row 9. The
    /// two departments' tops are document 02's.
    #[test]
    fn roots() {
        assert_eq!(ranges(&samples::row(5), 6), (vec![1, 2], 2));
        assert_eq!(ranges(&samples::row(9), 0), (vec![], 2));
        let two = samples::two_departments();
        assert_eq!(ranges(&two, 2), (vec![1, 2], 2));
        assert_eq!(ranges(&two, 6), (vec![1, 2, 1, 2], 4));
    }

    /// Components that are not runs of numbers: x0 = x3 and x1 = x2 give the ranks 1, 1, 2, 2.
    #[test]
    fn ranks_go_by_number_inside_a_component() {
        let mut p = Problem::new();
        let x: Vec<_> = (0..4).map(|i| p.function(&format!("x{i}"), 0)).collect();
        let x: Vec<_> = x.into_iter().map(|x| p.apply(x, &[])).collect();
        let (left, right) = (p.equal(x[3], x[0]), p.equal(x[1], x[2]));
        let apart = p.or(left, right);
        assert_eq!(ranges(&p, apart.node()), (vec![1, 1, 2, 2], 4));
        let link = p.equal(x[3], x[1]);
        assert_eq!(ranges(&p, apart.node()), (vec![1, 1, 2, 2], 4));
        let joined = p.or(apart, link);
        assert_eq!(ranges(&p, joined.node()), (vec![1, 2, 3, 4], 24));
    }

    /// A choice has the leaves of its second and third operands, not of its first, and an equation
    /// links left with right alone: choice(u = v, x, y) = z joins x, y and z; u and v are apart.
    #[test]
    fn leaves_of_a_choice() {
        let mut p = Problem::new();
        let [u, v, x, y, z] = ["u", "v", "x", "y", "z"].map(|name| p.function(name, 0));
        let [u, v, x, y, z] = [u, v, x, y, z].map(|variable| p.apply(variable, &[]));
        let condition = p.equal(u, v);
        let choice = p.choose(condition, x, y);
        let itself = p.equal(choice, choice);
        assert_eq!(ranges(&p, itself.node()), (vec![1, 2, 1, 2], 4));
        let other = p.equal(choice, z);
        assert_eq!(ranges(&p, other.node()), (vec![1, 2, 1, 2, 3], 12));
    }

    /// Truth variables double the product.
    #[test]
    fn truth_variables() {
        let three = samples::three_tests();
        assert_eq!(ranges(&three, 6), (vec![1, 2], 16));
    }
}
