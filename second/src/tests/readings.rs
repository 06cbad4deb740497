//! The examples of the readings, by their numbers.

use super::{all, ask};

#[test]
fn r01_the_row_is_an_ordered_list() {
    all(&[
        ("form|YX|Y", "FORM (POW 1 1 0)"),
        ("form|YX|X", "FORM (POP 1 (POW 1 1 0))"),
        ("form|XX|X", "REFUSED 1 neither 0"),
    ]);
}

#[test]
fn r02_left_wholly_before_right() {
    let long = "X".repeat(4_097);
    for left in ["1073741824", "Q", "(", "(EXPT X 64)"] {
        let answer = ask(&format!("compare|X|{left}|{long}"));
        assert!(answer.contains(" left "), "{answer}");
    }
    assert_eq!(ask(&format!("compare|X|X|{long}")), "REFUSED 3 right 0");
    assert_eq!(ask(&format!("compare|X|{long}|(")), "REFUSED 3 left 0");
}

#[test]
fn r03_to_r05_places_of_4_and_5() {
    all(&[
        ("form|X|(- X ", "REFUSED 4 left 5"),
        ("form|X|   ", "REFUSED 4 left 3"),
        ("form|X|(+(- X)1)", "FORM (POW 1 -1 1)"),
        ("form|X|X\r", "REFUSED 4 left 0"),
        ("form|X|(+ X\u{e9} 1)", "REFUSED 4 left 3"),
        ("form|X|(+ Q 1)", "REFUSED 5 left 3"),
        ("form|X|(- X Q)", "REFUSED 5 left 5"),
        ("form|X|(Q X 1)", "REFUSED 4 left 1"),
        ("form|X|(EXPT X Q)", "REFUSED 4 left 8"),
        ("form|X|(+ X X Q)", "REFUSED 4 left 7"),
        ("form|X|X Q", "REFUSED 4 left 2"),
        ("form|X|(+ QQ 1)", "REFUSED 4 left 3"),
    ]);
}

/// A tab cannot stand in a field at the desk, but it can in a body of a book.
#[test]
fn r04_a_tab_is_no_blank() {
    let row = crate::row::Row::read(b"X").unwrap();
    let fault = crate::termwork::accepted(&row, b"(+ X\t1)").unwrap_err();
    assert_eq!((fault.number, fault.place), (4, 3));
    assert!(crate::termwork::accepted(&row, b"\n(+\nX\n1)\n").is_ok());
}

#[test]
fn r06_to_r09_measures_come_last() {
    let far = format!("form|X|(EXPT 1 {})", "9".repeat(200));
    assert_eq!(ask(&far), "REFUSED 8 left 0");
    let wide = format!("form|X|{}", "9".repeat(4_096));
    assert_eq!(ask(&wide), "REFUSED 9 left 0");
    all(&[
        ("form|X|(EXPT 1 64)", "REFUSED 8 left 0"),
        ("form|X|(EXPT 1 63)", "FORM 1"),
        ("form|X|(EXPT 1 18446744073709551617)", "REFUSED 8 left 0"),
        ("form|X|(- (EXPT 1 64) 9", "REFUSED 4 left 16"),
        ("form|X|(EXPT (EXPT X 64) 0)", "REFUSED 8 left 6"),
        ("form|X|(* 0 1073741824)", "REFUSED 9 left 5"),
        ("form|X|(EXPT (+ X 5) 0)", "FORM 1"),
        ("form|XY|(* (EXPT (EXPT (+ X Y) 15) 0) (EXPT Y 63))", "FORM (POP 1 (POW 63 1 0))"),
        ("form|X|(EXPT X -1)", "REFUSED 4 left 8"),
        ("form|X|(EXPT X 01)", "REFUSED 4 left 8"),
        ("form|X|(EXPT X (", "REFUSED 4 left 8"),
    ]);
    let deep = "(- ".repeat(16);
    assert_eq!(ask(&format!("form|X|{deep}X X (")), "REFUSED 4 left 52");
    assert_eq!(ask(&format!("form|X|{deep}(")), "REFUSED 6 left 48");
    assert_eq!(ask(&format!("form|X|{deep}X (")), "REFUSED 6 left 50");
    assert_eq!(ask(&format!("form|X|{}(( 1)", "(- ".repeat(15))), "REFUSED 4 left 46");
}

#[test]
fn r10_places_of_4_in_forms() {
    all(&[
        ("judge|X|-0", "REFUSED 4 left 1"),
        ("judge|X|00", "REFUSED 4 left 1"),
        ("judge|X|(POW -1 1 0)", "REFUSED 4 left 5"),
        ("judge|X|(POW -1", "REFUSED 4 left 5"),
        ("judge|X|(POW 01", "REFUSED 4 left 6"),
        ("judge|X|(POW 1", "REFUSED 4 left 6"),
        ("judge|X|", "REFUSED 4 left 0"),
        ("judge|X|-", "REFUSED 4 left 1"),
        ("judge|X|1 ", "REFUSED 4 left 1"),
        ("judge|X|(POW 1 1 0) ", "REFUSED 4 left 11"),
        ("judge|X|(POW 1  1 0)", "REFUSED 4 left 7"),
        ("judge|X|( POW 1 1 0)", "REFUSED 4 left 1"),
        ("judge|X|(POW 1 1 0 )", "REFUSED 4 left 10"),
        ("judge|X|(POX 1 1 0)", "REFUSED 4 left 3"),
        ("judge|X|(POP 1 1 0)", "REFUSED 4 left 8"),
        ("judge|X|X", "REFUSED 4 left 0"),
    ]);
}

#[test]
fn r11_nesting_of_forms() {
    let chain = |depth: usize| format!("{}1{}", "(POW 1 ".repeat(depth), " 1)".repeat(depth));
    assert_eq!(ask(&format!("judge|X|{}", chain(63))), "YES");
    assert_eq!(ask(&format!("judge|X|{}", chain(64))), "REFUSED 8 left 0");
    assert_eq!(ask(&format!("judge|X|{}", chain(256))), "REFUSED 8 left 0");
    assert_eq!(ask(&format!("judge|X|{}", chain(257))), "REFUSED 6 left 1792");
    let open = "(POW 1 ".repeat(256);
    assert_eq!(ask(&format!("judge|X|{open}1(")), "REFUSED 4 left 1793");
}

#[test]
fn r12_levels_are_exact() {
    all(&[
        ("judge|XYZW|(POP 5 (POW 1 1 0))", "REFUSED 7 left 7"),
        ("judge|XYZW|(POP 4 (POW 1 1 0))", "REFUSED 7 left 7"),
        ("judge|XYZW|(POP 3 (POW 1 1 0))", "YES"),
        ("judge|XYZW|(POP 4294967296 (POW 1 1 0))", "REFUSED 7 left 16"),
        ("judge|XYZW|(POP 18446744073709551617 (POW 1 1 0))", "REFUSED 7 left 26"),
        ("judge|XY|(POW 1 1 (POW 1 1 (POW 1 1 0)))", "REFUSED 7 left 18"),
        ("judge|XY|(POP 0 (POW 1 1 0))", "REFUSED 7 left 0"),
        ("judge|XY|(POP 1 5)", "REFUSED 7 left 0"),
        ("judge|XYZ|(POP 1 (POP 1 (POW 1 1 0)))", "REFUSED 7 left 0"),
        ("judge|XY|(POP 1 (POP 1 (POW 1 1 0)))", "REFUSED 7 left 14"),
        ("judge|X|(POW 0 0 0)", "REFUSED 7 left 0"),
        ("judge|X|(POW 1 (POW 0 1 0) (POW 1 1 0))", "REFUSED 7 left 7"),
    ]);
}

#[test]
fn r13_a_forms_own_measures() {
    all(&[
        ("judge|X|(POW 64 1073741824 0)", "REFUSED 8 left 0"),
        ("judge|X|(POW 63 1073741824 0)", "REFUSED 9 left 0"),
        ("judge|X|(POW 63 1073741822 -1)", "YES"),
        ("judge|X|(POW 63 1073741822 -2)", "REFUSED 9 left 0"),
        ("judge|X|(POW 60 (POW 4 1 1) 0)", "REFUSED 8 left 0"),
        ("judge|X|(POW 4294967297 1 0)", "REFUSED 8 left 0"),
        ("add|X|1|18446744073709551616", "REFUSED 9 right 0"),
    ]);
}

#[test]
fn r14_operations_by_the_table() {
    all(&[
        ("add|X|1073741823|-1", "REFUSED 9 neither 0"),
        ("add|X|1073741822|-1", "FORM 1073741821"),
        ("raise|X|1|64", "REFUSED 8 neither 0"),
        ("raise|X|1|4294967295", "REFUSED 8 neither 0"),
        ("raise|X|(POW 1 0 0)|64", "REFUSED 7 left 0"),
        ("multiply|X|(POW 32 1 0)|(POW 32 1 0)", "REFUSED 8 neither 0"),
        ("multiply|X|0|(POW 63 1073741823 0)", "FORM 0"),
        ("multiply|X|32768|32768", "REFUSED 9 neither 0"),
        ("multiply|X|32767|-32769", "FORM -1073741823"),
        ("raise|XY|(POW 1 1 (POW 1 1 0))|16", "REFUSED 10 neither 0"),
    ]);
    assert!(ask("raise|XY|(POW 1 1 (POW 1 1 0))|15").starts_with("FORM "));
}

/// The widest form and the widest difference that accepted terms reach.
#[test]
fn r18_extremes() {
    let wide = |y: &str| {
        let x = "(* (EXPT (+ 1 X) 15) (* (+ 1 (EXPT X 16)) (+ 1 (EXPT X 32))))";
        format!("(* {x} (* (* (EXPT (+ 1 Y) 3) {y}) (* Z W)))")
    };
    let answer = ask(&format!("form|XYZW|{}", wide("Y")));
    let count = |part: &str| answer.matches(part).count();
    assert_eq!((count("POW"), count("POP")), (831, 321));
    let texts = answer.split([' ', '(', ')']).filter(|part| !part.is_empty());
    // Each node has its index besides the leaves; one word is the answer's own.
    let numbers = texts.filter(|part| part.parse::<i64>().is_ok()).count();
    assert_eq!(numbers - 831 - 321, 832);
    let pair = format!("compare|XYZW|{}|{}", wide("Y"), wide("(EXPT Y 5)"));
    assert_eq!(ask(&pair), "DIFF 0 2 1 1 54 864");
}
