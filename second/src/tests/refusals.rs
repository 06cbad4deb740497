//! The refusals table, its order, and requests that are wrong in themselves.

use super::{all, ask};
use crate::desk;

#[test]
fn each_number_once() {
    let long_term = format!("form|X|{}", " ".repeat(4_096) + "X");
    let long_form = format!("judge|X|{}", "1".repeat(65_536));
    assert_eq!(ask(&long_term), "REFUSED 3 left 0");
    assert_eq!(ask(&long_form), "REFUSED 3 left 0");
    assert_eq!(ask(&format!("judge|X|{}", "1".repeat(65_535))), "REFUSED 9 left 0");
    assert_eq!(ask(&format!("form|X|{}", " ".repeat(4_095) + "X")), "FORM (POW 1 1 0)");
    all(&[
        ("form||X", "REFUSED 1 neither 0"),
        ("form|XYZWV|X", "REFUSED 1 neither 0"),
        ("form|x|x", "REFUSED 1 neither 0"),
        ("form|X |X", "REFUSED 1 neither 0"),
        ("form|X|)", "REFUSED 4 left 0"),
        ("form|X|Y", "REFUSED 5 left 0"),
        ("judge|X|(POW 1 0 0)", "REFUSED 7 left 0"),
        ("form|X|(* (EXPT X 32) (EXPT X 32))", "REFUSED 8 left 0"),
        ("form|X|(+ 1073741823 X)", "REFUSED 9 left 0"),
        ("form|XYZ|(EXPT (+ X (+ Y Z)) 6)", "REFUSED 10 left 0"),
        ("form|XYZ|(EXPT (+ X (+ Y Z)) 16)", "REFUSED 10 left 0"),
        ("remainder|XY|X|1", "REFUSED 12 neither 0"),
        ("remainder|XY|X", "REFUSED 12 neither 0"),
        ("formremainder|X|1|1|2", "REFUSED 12 neither 0"),
        ("counters|X|1|X|X", "REFUSED 14 neither 0"),
    ]);
}

#[test]
fn order_of_the_numbers() {
    let long = "X".repeat(5_000);
    assert_eq!(ask(&format!("counters|XX|9|{long}|{long}")), "REFUSED 1 neither 0");
    assert_eq!(ask(&format!("counters|X|9|{long}|{long}")), "REFUSED 14 neither 0");
    assert_eq!(ask(&format!("remainder|X|{long}|1|1")), "REFUSED 12 neither 0");
    assert_eq!(ask(&format!("remainder|XX|{long}|1|1")), "REFUSED 1 neither 0");
    assert_eq!(ask(&format!("remainder|X|{long}|1")), "REFUSED 3 left 0");
    all(&[
        // The earliest of 4, 5 and 6, before any measure.
        ("form|X|(+ Q )", "REFUSED 5 left 3"),
        ("form|X|(+ 1073741824 Q)", "REFUSED 5 left 14"),
        // The first node to finish, whatever its number.
        ("form|X|(+ 1073741824 (EXPT X 64))", "REFUSED 9 left 3"),
        ("form|X|(+ (EXPT X 64) 1073741824)", "REFUSED 8 left 3"),
        // At one node the lower number.
        ("form|X|(EXPT (+ X 1) 64)", "REFUSED 8 left 0"),
        ("form|X|(EXPT (+ X 1) 63)", "REFUSED 9 left 0"),
        ("form|XY|(EXPT (+ X Y) 30)", "REFUSED 9 left 0"),
        // 7 before 8 in forms; the texts before the result.
        ("judge|X|(POW 64 (POW 1 0 0) 0)", "REFUSED 7 left 8"),
        ("add|X|1073741823|1073741824", "REFUSED 9 right 0"),
        ("multiply|X|(POW 63 2 0)|(POW 1 1073741823 0)", "REFUSED 8 neither 0"),
        ("compare|X|1073741824|1073741824", "REFUSED 9 left 0"),
        ("compare|X|1073741823|-1073741823", "DIFF 0 1073741823 1073741824"),
    ]);
}

#[test]
fn terms_are_cut_to_the_box() {
    let wide = "(EXPT (+ X Y) 15)";
    assert!(ask(&format!("form|XY|(+ {wide} 1)")).starts_with("FORM "));
    assert_eq!(ask(&format!("form|XY|(+ {wide} (EXPT X 16))")), "REFUSED 10 left 0");
    assert!(ask("form|X|(* (EXPT (+ X 1) 20) (EXPT (+ X 1) 9))").starts_with("FORM "));
}

#[test]
fn wrong_requests() {
    all(&[
        ("", "? 0"),
        ("Form|X|X", "? 0"),
        ("form", "? 1"),
        ("form|X", "? 2"),
        ("form|X|X|", "? 3"),
        ("raise|X|1", "? 3"),
        ("raise|X|1|-1", "? 3"),
        ("raise|X|1|01", "? 3"),
        ("raise|X|1|4294967296", "? 3"),
        ("raise|X|1|+1|9", "? 3"),
        ("raise|X|1|1|9", "? 4"),
        ("counters|X|-0", "? 2"),
        ("counters|X|8", "? 3"),
        ("counters|X|8|X", "? 4"),
        ("counters|X|8|X|X|X", "? 5"),
        ("remainder|X", "? 2"),
        ("remainder|X|X|", "? 3"),
        ("remainder|X|X|1|2147483648", "? 4"),
        ("remainder|X|X|-2147483649", "? 3"),
        ("remainder|X|X|-0", "? 3"),
        ("remainder|??|X|x", "? 3"),
    ]);
}

#[test]
fn lines_of_the_desk() {
    let answers = |input: &[u8]| {
        let mut output = Vec::new();
        desk::run(input, &mut output).unwrap();
        String::from_utf8(output).unwrap()
    };
    assert_eq!(answers(b""), "");
    assert_eq!(answers(b"\n"), "? 0\n");
    assert_eq!(answers(b"form\tX\tX"), "FORM (POW 1 1 0)\n");
    assert_eq!(answers(b"form\tX\t1\nform\tX\t\xff\x00\n"), "FORM 1\nREFUSED 4 left 0\n");
    let long = [b"form\tX\t".to_vec(), vec![b'1'; 139_000]].concat();
    assert_eq!(answers(&long), "REFUSED 3 left 0\n");
}
