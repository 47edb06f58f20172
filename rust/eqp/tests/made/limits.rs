//! Problems on both sides of each limit, with the refusal of those beyond it.

use eqp::problem::{Formula, Problem, Term};
use eqp::samples::variables;
use eqp::workloads;

use super::fields;

/// The largest product that is not refused.
const MOST_PLACES: u128 = 1_000_000_000_000_000_000;

/// A problem, and the refusal number and place that it must get if any.
pub type Case = (Vec<u8>, Option<(u8, u64)>);

/// All of them, by what they are the limits of.
pub fn groups() -> [(&'static str, Vec<Case>); 9] {
    let all = all_products();
    let largest = (workloads::largest().bytes(), Some((13, 0)));
    [
        ("counts", counts()),
        ("symbols", symbols()),
        ("nodes", nodes()),
        ("fields", fields::cases()),
        ("applications", applications()),
        ("products", products(&all)),
        ("wrapped products", wrapped(&all)),
        ("arrays", arrays()),
        ("tables", vec![largest]),
    ]
}

/// So many symbols, then nodes up to so many: one true, and negations.
fn sized(symbols: usize, nodes: usize) -> Problem {
    let mut p = Problem::new();
    for i in 0..symbols {
        p.predicate(&format!("q{i}"), 0);
    }
    if nodes > 0 {
        let mut last = p.yes();
        for _ in 1..nodes {
            last = p.not(last);
        }
    }
    p
}

fn counts() -> Vec<Case> {
    let too_many = Some((4, 0));
    let whole = sized(0, 1).bytes();
    vec![
        (whole[..7].to_vec(), Some((1, 0))),
        (whole[..8].to_vec(), Some((5, 0))),
        (whole[..15].to_vec(), Some((5, 0))),
        ([&whole[..], &[0]].concat(), Some((5, 0))),
        (whole, None),
        (sized(32, 1).bytes(), None),
        (sized(33, 1).bytes(), too_many),
        (sized(3, 0).bytes(), too_many),
        (sized(3, 256).bytes(), None),
        (sized(32, 256).bytes(), None),
        (sized(3, 257).bytes(), too_many),
    ]
}

/// Each symbol byte, as the second of three.
fn symbols() -> Vec<Case> {
    let case = |byte: u8| {
        let mut bytes = sized(3, 2).bytes();
        bytes[9] = byte;
        let known = matches!(byte, 0..=3 | 16..=19);
        (bytes, (!known).then_some((6, 1)))
    };
    (0..=255).map(case).collect()
}

/// x, y, x = y and x = y again, with one byte changed; the nodes start at 10, 18, 26 and 34.
fn edited(at: usize, byte: u8, refusal: Option<(u8, u64)>) -> Case {
    let mut p = Problem::new();
    let x = variables(&mut p, "x", 2);
    p.equal(x[0], x[1]);
    p.equal(x[0], x[1]);
    let mut bytes = p.bytes();
    bytes[at] = byte;
    (bytes, refusal)
}

/// Each op, the last symbol and the one past it, the last operand and the one past it.
fn nodes() -> Vec<Case> {
    let wrong = |place| Some((7, place));
    let mut cases: Vec<_> = (10..=255).map(|op| edited(34, op, wrong(3))).collect();
    cases.extend([
        edited(19, 1, None),
        edited(19, 2, wrong(1)),
        edited(28, 1, None),
        edited(28, 2, wrong(2)),
        edited(29, 1, wrong(2)),
        edited(30, 2, wrong(2)),
        edited(32, 1, wrong(2)),
        edited(33, 1, wrong(2)),
        edited(38, 2, wrong(3)),
        edited(38, 3, wrong(3)),
        edited(10, 1, wrong(0)),
        edited(12, 1, wrong(0)),
        edited(27, 1, wrong(2)),
        edited(26, 0, wrong(2)),
        edited(34, 0, wrong(3)),
        edited(35, 1, wrong(3)),
    ]);
    cases
}

/// Distinct applications of one symbol: of a variable's repeats, which have numbers of their own.
/// The root reaches the functions by choices, under a predicate of their own: equations would join
/// them all.
fn applied(functions: usize, predicates: usize) -> Problem {
    let mut p = Problem::new();
    let x = p.function("x", 0);
    let (f, q, r) = (p.function("f", 1), p.predicate("q", 1), p.predicate("r", 1));
    let repeats: Vec<Term> = (0..40).map(|_| p.apply(x, &[])).collect();
    let yes = p.yes();
    let mut choices = repeats[0];
    for &repeat in &repeats[..functions - 1] {
        let application = p.apply(f, &[repeat]);
        choices = p.choose(yes, application, choices);
    }
    let mut root = p.test(r, &[choices]);
    for &repeat in &repeats[..predicates - 1] {
        let test = p.test(q, &[repeat]);
        root = p.or(root, test);
    }
    p
}

/// Tables on both sides of 86 nodes, where the library takes larger arrays: x = y, and negations.
fn arrays() -> Vec<Case> {
    let table = |nodes| {
        let mut p = Problem::new();
        let x = variables(&mut p, "x", 2);
        let mut last = p.equal(x[0], x[1]);
        while p.node_count() < nodes {
            last = p.not(last);
        }
        (p.bytes(), None)
    };
    (84..=89).map(table).collect()
}

fn applications() -> Vec<Case> {
    let case = |functions, predicates, refusal: Option<u8>| {
        let bytes = applied(functions, predicates).bytes();
        (bytes, refusal.map(|number| (number, 0)))
    };
    vec![
        case(24, 1, None),
        case(25, 1, Some(9)),
        case(1, 16, None),
        case(1, 17, Some(10)),
        case(24, 16, None),
        case(25, 16, Some(9)),
        case(24, 17, Some(10)),
        case(25, 17, Some(9)),
    ]
}

/// Components of these sizes, and so many truth variables: tests of a variable's repeats.
fn sizes(components: &[usize], truths: usize) -> Problem {
    let mut p = Problem::new();
    let again = p.function("x0", 0);
    let mut x = vec![p.apply(again, &[])];
    let others = components.iter().sum::<usize>().max(1) - 1;
    x.extend(variables(&mut p, "x", others));
    let q = p.predicate("q", 1);
    let mut root = p.yes();
    let mut rest = &x[..];
    for &size in components {
        let (component, others) = rest.split_at(size);
        root = joined(&mut p, root, component);
        rest = others;
    }
    for _ in 0..truths {
        let repeat = p.apply(again, &[]);
        let test = p.test(q, &[repeat]);
        root = p.or(root, test);
    }
    p
}

fn joined(p: &mut Problem, mut root: Formula, component: &[Term]) -> Formula {
    for pair in component.windows(2) {
        let equation = p.equal(pair[0], pair[1]);
        root = p.or(root, equation);
    }
    root
}

/// A product, the sizes of its components, and how many truth variables it has.
type Product = (u128, Vec<usize>, usize);

fn product_case((product, components, truths): &Product) -> Case {
    let refusal = (*product > MOST_PLACES).then_some((13, 0));
    (sizes(components, *truths).bytes(), refusal)
}

/// The products closest to 10^18 on both sides.
fn products(all: &[Product]) -> Vec<Case> {
    let over = all.partition_point(|(product, ..)| *product <= MOST_PLACES);
    assert!(0 < over && over < all.len());
    let near = &all[over.saturating_sub(20)..(over + 20).min(all.len())];
    near.iter().map(product_case).collect()
}

/// Products that are too large, while their low 64 bits would be taken, or be below 0: some of the
/// smallest and of the largest.
fn wrapped(all: &[Product]) -> Vec<Case> {
    let low = |product: u128| product as u64;
    let wraps = |(product, ..): &&Product| *product > u128::from(low(*product));
    let small = |(product, ..): &&Product| u128::from(low(*product)) <= MOST_PLACES;
    let below = |(product, ..): &&Product| *product > MOST_PLACES && (low(*product) as i64) < 0;
    let first = all.iter().filter(wraps).filter(small).take(10);
    let last = all.iter().rev().filter(wraps).filter(small).take(10);
    let signed = all.iter().filter(below).take(10);
    first.chain(last).chain(signed).map(product_case).collect()
}

/// All products in order.
fn all_products() -> Vec<Product> {
    let mut all = Vec::new();
    partitions(&mut all, &mut Vec::new(), 1, 24, 24);
    all.sort();
    all
}

/// All products of components that hold at most `left` variables, with up to 16 truth variables.
fn partitions(
    all: &mut Vec<Product>,
    components: &mut Vec<usize>,
    product: u128,
    left: usize,
    largest: usize,
) {
    all.extend((0..=16).map(|truths| (product << truths, components.clone(), truths)));
    for size in 2..=largest.min(left) {
        components.push(size);
        let factorial: u128 = (1..=size as u128).product();
        partitions(all, components, product * factorial, left - size, size);
        components.pop();
    }
}
