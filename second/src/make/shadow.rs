//! Pairs whose values part at 2 while their remainders part only much later.
//! The coefficients were found by lattice reduction: each polynomial is 0 in the whole numbers
//! at 0 and 1, and from 2 to the point named it is a multiple of P that is not 0.

use super::pairs::{expanded, Pair};
use super::rng::Rng;
use super::terms::{int, plus, power, times, var};
use crate::poly::Poly;
use crate::term::Term;
use crate::termwork::P;

/// Powers 1 to 20; 0 by P at 0 to 17.
#[rustfmt::skip]
const TWENTY: [i32; 20] = [
    -7_423_203, 14_006_495, -36_547_070, 2_972_337, -10_825_143, 851_471, 1_090_845, -3_894_425,
    -56_944_397, -7_269_770, -9_199_034, 51_321_924, -9_168_624, 3_560_949, -5_114_292,
    44_306_954, -18_869_871, 35_593_638, 13_570_791, -2_019_575,
];

/// Powers 1 to 31; 0 by P at 0 to 27.
#[rustfmt::skip]
const THIRTY_ONE: [i32; 31] = [
    8_903_294, -9_501_358, 19_847_936, 55_500_490, -31_391_079, 23_473_997, 26_098_672,
    -10_282_445, -27_941_258, 22_636_186, 15_990_381, 7_416_908, -11_468_536, -47_284_147,
    -39_167_832, 28_783_440, 22_796_847, -57_245_849, 31_631_303, 58_768_527, -22_059_292,
    -50_863_398, -34_227_965, 10_013_602, -31_589_328, 15_285_064, 41_933_967, -25_158_459,
    20_460_977, -7_752_449, -3_608_196,
];

/// Powers 1 to 63; 0 by P at 0 to 54.
#[rustfmt::skip]
const SIXTY_THREE: [i32; 63] = [
    28_052_726, 59_890_479, -44_055_361, -11_773_064, 49_688_519, 40_614_175, 17_690_736,
    -17_619_841, -2_600_923, -18_588_612, -57_856_684, -29_840_827, 73_653_392, -26_876_527,
    12_724_407, -2_583_750, 51_654_285, -26_510_981, 17_448_486, -7_123_920, -1_721_654,
    68_746_729, -36_231_105, -5_412_179, -17_900_090, -36_638_769, -10_589_347, -43_972_067,
    -137_057, -54_088_634, 45_650_031, -1_471_874, 5_655_068, -49_808_755, 51_329_987,
    29_342_533, -25_364_712, 14_875_035, -1_999_484, 35_938_147, 25_803_801, 18_583_229,
    2_663_843, -51_637_243, -21_692_381, -30_444_301, 28_047_695, -30_091_927, 27_778_301,
    -5_587_653, -22_521_337, 13_529_813, 7_111_022, 31_013_078, 15_257_988, -31_743_270,
    14_606_802, 16_401_205, -24_850_737, -6_354_573, -13_580_770, -23_918_407, -10_562_696,
];

pub fn pair(rng: &mut Rng, vars: usize) -> Pair {
    let v = rng.index(vars);
    match rng.below(6) {
        0 => of_list(v, &TWENTY),
        1 => of_list(v, &THIRTY_ONE),
        2 => of_list(v, &SIXTY_THREE),
        _ => cubic(rng, v),
    }
}

/// The positive part against the negative one, so that both stay inside the weight limit.
fn of_list(v: usize, coefficients: &[i32]) -> Pair {
    let (mut left, mut right) = (Poly::zero(), Poly::zero());
    for (k, coefficient) in coefficients.iter().enumerate() {
        let mut exponents = [0; 4];
        exponents[v] = k as u8 + 1;
        let side = if *coefficient > 0 { &mut left } else { &mut right };
        side.put(exponents, i128::from(*coefficient).abs());
    }
    (expanded(&left), expanded(&right))
}

/// v (v - 1)(a v + b) with 2 a + b = P: 0 in the whole numbers at 0 and 1, and by P at 2.
fn cubic(rng: &mut Rng, v: usize) -> Pair {
    let a = rng.between(536_870_912, 1_073_741_823);
    let b = P - 2 * a;
    let (cube, square, line) = (of(a, v, 3), of((b - a).abs(), v, 2), of(b, v, 1));
    if b > a {
        (plus(cube, square), line)
    } else {
        (cube, plus(square, line))
    }
}

fn of(coefficient: i128, v: usize, n: u128) -> Term {
    times(int(coefficient), power(var(v), n))
}
