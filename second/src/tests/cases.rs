//! "Pairs on either side of a line", "Easy slips" and the corrections to document 000.

use super::{all, ask, minuses};

#[test]
fn forms_of_terms() {
    all(&[
        ("form|XY|Y", "FORM (POP 1 (POW 1 1 0))"),
        ("form|XY|(* (+ X Y) (- X Y))", "FORM (POW 2 1 (POW 2 -1 0))"),
        ("form|X|(* (+ (EXPT X 2) 5) (+ X 7))", "FORM (POW 1 (POW 1 (POW 1 1 7) 5) 35)"),
        ("form|XYZ|(+ (* X Z) (EXPT X 3))", "FORM (POW 1 (POW 2 1 (POP 1 (POW 1 1 0))) 0)"),
        ("form|X|(- X X)", "FORM 0"),
        ("form|X|(EXPT 0 0)", "FORM 1"),
    ]);
}

#[test]
fn either_side_of_the_limits() {
    all(&[
        ("form|X|(EXPT 2 29)", "FORM 536870912"),
        ("form|X|(EXPT 2 30)", "REFUSED 9 left 0"),
        ("form|X|1073741823", "FORM 1073741823"),
        ("form|X|1073741824", "REFUSED 9 left 0"),
        ("form|X|-1073741823", "FORM -1073741823"),
        ("form|X|-1073741824", "REFUSED 9 left 0"),
        ("form|X|(EXPT X 63)", "FORM (POW 63 1 0)"),
        ("form|X|(EXPT X 64)", "REFUSED 8 left 0"),
        ("form|XY|(EXPT (+ X Y) 16)", "REFUSED 10 left 0"),
    ]);
    assert!(ask("form|XY|(EXPT (+ X Y) 15)").starts_with("FORM (POW 1 (POW 1 "));
    assert_eq!(ask("remainder|XY|(EXPT (+ X Y) 15)|1|1"), "REMAINDER 32768");
}

#[test]
fn comparisons() {
    all(&[
        ("compare|X|(EXPT X 2)|X", "DIFF 2 4 2"),
        ("compare|X|X|(- X)", "DIFF 1 1 2147483646"),
        ("compare|XY|(* X Y)|0", "DIFF 1 1 1 0"),
        ("compare|XY|(* (+ X Y) (- X Y))|(- (EXPT X 2) (EXPT Y 2))", "SAME"),
        ("compare|XY|(- X Y)|0", "DIFF 0 1 2147483646 0"),
        ("compare|YX|(- X Y)|0", "DIFF 0 1 1 0"),
        ("compare|XYZW|W|0", "DIFF 0 0 0 1 1 0"),
        ("compare|X|1073741823|-1073741823", "DIFF 0 1073741823 1073741824"),
    ]);
}

/// The values part at 2, by a multiple of P; the remainders part only at 3.
#[test]
fn remainders_decide_the_point() {
    let left = "(+ (* 715827882 (EXPT X 3)) (EXPT X 2))";
    let right = "(* 715827883 X)";
    let (l, r) = ((27 * 715_827_882_i64 + 9) % 2_147_483_647, 3 * 715_827_883 % 2_147_483_647_i64);
    assert_eq!(ask(&format!("compare|X|{left}|{right}")), format!("DIFF 3 {l} {r}"));
    let at_two = ask(&format!("remainder|X|{left}|2"));
    assert_eq!(at_two, ask(&format!("remainder|X|{right}|2")));
}

#[test]
fn refused_texts() {
    all(&[
        ("form|X|", "REFUSED 4 left 0"),
        ("form|XY|(+X Y)", "REFUSED 4 left 1"),
        ("form|XY|Q", "REFUSED 5 left 0"),
        ("judge|X|(POW 1 0 5)", "REFUSED 7 left 0"),
        ("judge|X|(POP 1 (POW 1 1 0))", "REFUSED 7 left 7"),
    ]);
    assert_eq!(ask(&format!("form|X|{}", minuses(16))), "FORM (POW 1 1 0)");
    assert_eq!(ask(&format!("form|X|{}", minuses(17))), "REFUSED 6 left 48");
}

#[test]
fn easy_slips() {
    all(&[
        // The middle of the sum cancels, so the two POWs become one.
        ("add|X|(POW 1 (POW 2 3 4) 0)|(POW 1 -4 0)", "FORM (POW 3 3 0)"),
        ("form|X|(- (+ (* 3 (EXPT X 3)) (* 4 X)) (* 4 X))", "FORM (POW 3 3 0)"),
        ("judge|X|(POW 1 (POW 2 3 0) 0)", "REFUSED 7 left 0"),
        // 0 at 0, 1, 2 and 3, and yet not the same.
        ("compare|X|(* X (* (- X 1) (* (- X 2) (- X 3))))|0", "DIFF 4 24 0"),
        ("form|X|(- (EXPT 2 30) (EXPT 2 30))", "REFUSED 9 left 3"),
    ]);
}

#[test]
fn corrections_to_document_000() {
    let first = "(+ (+ (* 4 (* (EXPT X 4) (EXPT Y 2))) (* 3 (EXPT X 3))) (+ (* 2 (EXPT Z 4)) 5))";
    let form = "(POW 3 (POW 1 (POP 1 (POW 2 4 0)) 3) (POP 1 (POW 4 2 5)))";
    assert_eq!(ask(&format!("form|XYZ|{first}")), format!("FORM {form}"));
    assert_eq!(ask(&format!("remainder|XYZ|{first}|1|2|3")), "REMAINDER 186");
    assert_eq!(ask(&format!("formremainder|XYZ|{form}|1|2|3")), "REMAINDER 186");
    let second = "(+ (- Z) (* (EXPT X 3) (- (+ Z X) (* 3 Y))))";
    let own = "(POW 3 (POW 1 1 (POW 1 -3 (POW 1 1 0))) (POP 1 (POW 1 -1 0)))";
    assert_eq!(ask(&format!("form|XYZ|{second}")), format!("FORM {own}"));
    // Definition 11(6): the two exponents differ, so the last summand shows which one stands there.
    all(&[
        ("multiply|X|(POW 3 1 5)|(POW 1 1 7)", "FORM (POW 1 (POW 2 (POW 1 1 7) 5) 35)"),
        ("multiply|X|(POW 1 1 7)|(POW 3 1 5)", "FORM (POW 1 (POW 2 (POW 1 1 7) 5) 35)"),
    ]);
}

#[test]
fn operations_on_forms() {
    all(&[
        ("judge|X|0", "YES"),
        ("negate|XY|(POW 2 1 (POW 2 -1 0))", "FORM (POW 2 -1 (POW 2 1 0))"),
        ("add|XY|(POW 1 1 0)|(POW 1 -1 0)", "FORM 0"),
        ("add|XY|(POP 1 (POW 1 1 0))|(POW 1 1 0)", "FORM (POW 1 1 (POW 1 1 0))"),
        ("multiply|XY|(POW 1 1 (POW 1 1 0))|(POW 1 1 (POW 1 -1 0))", "FORM (POW 2 1 (POW 2 -1 0))"),
        ("multiply|X|0|(POW 63 1 0)", "FORM 0"),
        ("raise|X|(POW 1 1 1)|2", "FORM (POW 1 (POW 1 1 2) 1)"),
        ("raise|X|(POW 63 1 0)|0", "FORM 1"),
        ("raise|X|0|0", "FORM 1"),
        ("raise|X|0|63", "FORM 0"),
        ("formremainder|X|-1|5", "REMAINDER 2147483646"),
        ("remainder|X|X|-2147483648", "REMAINDER 2147483646"),
        ("remainder|X|X|2147483647", "REMAINDER 0"),
        ("remainder|XY|(- X Y)|-2147483647|2147483647", "REMAINDER 0"),
    ]);
}

#[test]
fn counters() {
    all(&[
        ("counters|X|8|(* 256 X)|0", "SAME"),
        ("counters|X|16|(* 256 X)|0", "DIFF"),
        ("counters|X|0|(* 256 X)|0", "DIFF"),
        ("counters|X|0|(* 65536 X)|0", "SAME"),
        ("counters|X|16|(* -65536 X)|131072", "SAME"),
        ("counters|X|8|255|-1", "SAME"),
        // By coefficients, not by values.
        ("counters|X|8|(* 128 (* X (+ X 1)))|0", "DIFF"),
        ("counters|X|12|X|X", "REFUSED 14 neither 0"),
    ]);
}
