//! Problems as SMT-LIB, for a comparison with a solver.

use std::fmt::Write;

use crate::reference::{check, Checked, Node, Op, Refusal, Sort};

/// What comes before the jobs: the logic, and the one sort of values.
pub const PREAMBLE: &str = "(set-logic QF_UF)\n(declare-sort V 0)\n";

/// A problem's root between push and pop: unsat says that it is valid, sat that it is falsified.
///
/// Each node becomes a definition `n` and its number. The values are of a sort of their own
/// instead of whole numbers: a formula without quantifiers fails in some interpretation of the
/// one kind if and only if it fails in one of the other.
pub fn job(problem: &[u8], root: usize) -> Result<String, Refusal> {
    let problem = check(problem, root)?;
    let mut text = String::from("(push 1)\n");
    for (number, &symbol) in problem.symbols.iter().enumerate() {
        let arguments = ["V"; 3][..usize::from(symbol % 16)].join(" ");
        let sort = if symbol < 16 { "V" } else { "Bool" };
        line(
            &mut text,
            format_args!("(declare-fun s{number} ({arguments}) {sort})"),
        );
    }
    for (number, node) in problem.nodes.iter().enumerate() {
        let sort = match node.op.sort() {
            Sort::Term => "V",
            Sort::Formula => "Bool",
        };
        let meaning = meaning(&problem, node);
        line(
            &mut text,
            format_args!("(define-fun n{number} () {sort} {meaning})"),
        );
    }
    line(
        &mut text,
        format_args!("(assert (not n{root}))\n(check-sat)\n(pop 1)"),
    );
    Ok(text)
}

fn line(text: &mut String, what: std::fmt::Arguments) {
    writeln!(text, "{what}").expect("writing to memory");
}

fn meaning(problem: &Checked, node: &Node) -> String {
    let head = match node.op {
        Op::Apply | Op::Test => format!("s{}", node.symbol),
        Op::Choose | Op::Select => "ite".into(),
        Op::Equal => "=".into(),
        Op::Not => "not".into(),
        Op::And => "and".into(),
        Op::Or => "or".into(),
        Op::True => "true".into(),
        Op::False => "false".into(),
    };
    let used = problem.used(node);
    if used.is_empty() {
        return head;
    }
    let operands: String = used.iter().map(|operand| format!(" n{operand}")).collect();
    format!("({head}{operands})")
}

#[cfg(test)]
mod tests {
    use super::*;
    use crate::problem::Problem;
    use crate::samples;

    /// Row 9, by hand.
    #[test]
    fn row_nine() {
        let wanted = "(push 1)\n\
            (declare-fun s0 () Bool)\n\
            (declare-fun s1 () V)\n\
            (declare-fun s2 () V)\n\
            (define-fun n0 () Bool s0)\n\
            (define-fun n1 () V s1)\n\
            (define-fun n2 () V s2)\n\
            (define-fun n3 () V (ite n0 n1 n2))\n\
            (define-fun n4 () Bool (= n3 n1))\n\
            (assert (not n4))\n(check-sat)\n(pop 1)\n";
        assert_eq!(job(&samples::row(9).bytes(), 4).as_deref(), Ok(wanted));
    }

    /// Nodes of every op, and applications of every arity.
    fn of_every_op() -> Problem {
        let mut p = Problem::new();
        let f: Vec<_> = (0..4).map(|arity| p.function("f", arity)).collect();
        let q: Vec<_> = (0..4).map(|arity| p.predicate("q", arity)).collect();
        let x = p.apply(f[0], &[]);
        let fx = p.apply(f[1], &[x]);
        let two = p.apply(f[2], &[x, fx]);
        let three = p.apply(f[3], &[x, fx, two]);
        let tests = [
            p.test(q[0], &[]),
            p.test(q[1], &[x]),
            p.test(q[2], &[x, fx]),
            p.test(q[3], &[two, fx, three]),
        ];
        let choice = p.choose(tests[0], x, fx);
        let equation = p.equal(choice, three);
        let not = p.not(equation);
        let and = p.and(not, tests[3]);
        let or = p.or(tests[2], and);
        let (yes, no) = (p.yes(), p.no());
        p.select(or, yes, no);
        p
    }

    /// Their text, by hand.
    #[test]
    fn every_op() {
        let wanted = "(push 1)\n\
            (declare-fun s0 () V)\n\
            (declare-fun s1 (V) V)\n\
            (declare-fun s2 (V V) V)\n\
            (declare-fun s3 (V V V) V)\n\
            (declare-fun s4 () Bool)\n\
            (declare-fun s5 (V) Bool)\n\
            (declare-fun s6 (V V) Bool)\n\
            (declare-fun s7 (V V V) Bool)\n\
            (define-fun n0 () V s0)\n\
            (define-fun n1 () V (s1 n0))\n\
            (define-fun n2 () V (s2 n0 n1))\n\
            (define-fun n3 () V (s3 n0 n1 n2))\n\
            (define-fun n4 () Bool s4)\n\
            (define-fun n5 () Bool (s5 n0))\n\
            (define-fun n6 () Bool (s6 n0 n1))\n\
            (define-fun n7 () Bool (s7 n2 n1 n3))\n\
            (define-fun n8 () V (ite n4 n0 n1))\n\
            (define-fun n9 () Bool (= n8 n3))\n\
            (define-fun n10 () Bool (not n9))\n\
            (define-fun n11 () Bool (and n10 n7))\n\
            (define-fun n12 () Bool (or n6 n11))\n\
            (define-fun n13 () Bool true)\n\
            (define-fun n14 () Bool false)\n\
            (define-fun n15 () Bool (ite n12 n13 n14))\n\
            (assert (not n15))\n(check-sat)\n(pop 1)\n";
        assert_eq!(job(&of_every_op().bytes(), 15).as_deref(), Ok(wanted));
    }

    /// Another root of the same nodes is asserted in the last one's place.
    #[test]
    fn another_root() {
        let bytes = of_every_op().bytes();
        let text = |root| job(&bytes, root).expect("accepted");
        assert_eq!(text(10), text(15).replace("(not n15)", "(not n10)"));
    }

    #[test]
    fn refused() {
        let refused = |problem: &[u8], root| {
            let refusal = job(problem, root).expect_err("refused");
            (refusal.number, refusal.place)
        };
        assert_eq!(refused(b"EQP", 0), (1, 0));
        assert_eq!(refused(&samples::row(9).bytes(), 3), (16, 0));
    }

    #[test]
    fn preamble() {
        assert_eq!(PREAMBLE, "(set-logic QF_UF)\n(declare-sort V 0)\n");
    }
}
