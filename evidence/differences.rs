//! Shows by running where the source differs from the kernel, on the inputs of docs/DIFFERENCES.md: `plain` is the source as it is, `changed`
//! has the merge step and document 01's widening, and is what the kernel's ids are compared with. A line that does not differ as that
//! page says ends the program with a panic.
use source::stand_ins::MarkerOperator::{GreaterEqual, LessThan};
use std::ops::Bound::Included;

/// The calls on one form of the source; `$differs` says whether that form gives equal conditions two ids, and says that things overlap
/// which do not. x is variable 0, y is 1, a is 32, b is 33.
macro_rules! shows {
    ($form:ident, $differs:expr) => {{
        use source::$form::{Interner, Variable};

        // `a and x<2`, by way of or(x>=1, a), and directly.
        let table = Interner::default();
        let mut calls = table.lock();
        let below_2 = calls.comparison(0, LessThan, 2);
        let from_1 = calls.comparison(0, GreaterEqual, 1);
        let a = calls.boolean(32);
        let either = calls.or(from_1, a);
        let both = calls.and(below_2, either);
        let by_way = calls.and(both, a);
        let directly = calls.and(below_2, a);
        assert_eq!(by_way != directly, $differs, "merging in conjunction");

        // (x<1: b; 1<=x<2: a and b; else FALSE), restricted to a: `b and x<2`.
        let b = calls.boolean(33);
        let either = calls.or(from_1.not(), a);
        let inner = calls.and(either, b);
        let steps = calls.and(inner, below_2);
        let restricted = calls.restrict_one(steps, 32, true);
        let directly = calls.and(b, below_2);
        assert_eq!(restricted != directly, $differs, "merging in restriction");

        // (x<1: y<7; 1<=x<2: y<5; else FALSE), y narrowed to [0,4]: x<2.
        let below_7 = calls.comparison(1, LessThan, 7);
        let below_5 = calls.comparison(1, LessThan, 5);
        let either = calls.or(from_1.not(), below_5);
        let inner = calls.and(either, below_7);
        let steps = calls.and(inner, below_2);
        let y = Variable::numbered(1);
        let narrowed = calls.simplify_python_versions(steps, &y, Included(&0), Included(&4));
        assert_eq!(narrowed != below_2, $differs, "merging in narrowing");

        // `a`, widened by x in [3,7], and x<3: no reading makes both true.
        let table = Interner::default();
        let mut calls = table.lock();
        let a = calls.boolean(32);
        let x = Variable::numbered(0);
        let widened = calls.complexify_python_versions(a, &x, Included(&3), Included(&7));
        let below_3 = calls.comparison(0, LessThan, 3);
        let overlap = !calls.is_disjoint(widened, below_3);
        assert_eq!(overlap, $differs, "widening");
    }};
}

fn main() {
    shows!(plain, true);
    shows!(changed, false);
    println!("the source differs where docs/DIFFERENCES.md says: merging in conjunction, restriction and narrowing; widening");
}
