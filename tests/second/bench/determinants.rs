//! Rows of determinants made of numbers as large as the grid, with their signs as fixed numbers. Each row has the
//! determinant in its name, as it was worked out by other means. In the rows of large products each of the three that
//! it is the sum of has 89 bits to 93. The last rows were looked for: the quick estimate of request Q-7 is at least 3
//! times 2^40 and has the wrong sign, which is more than chance brings.

use super::{side, Row, END, MINUS_ONE, PLUS_ONE, ZERO};
use crate::answers::Answer;

pub fn rows() -> Vec<Row> {
    let mut rows = largest_rows();
    rows.extend(rows_of_powers());
    rows.extend(rows_of_large_products());
    rows
}

/// Tetrahedra from corner to corner of the grid.
fn largest_rows() -> Vec<Row> {
    let (e, f) = (END, -END);
    vec![
        side("-2^94", [e, e, f, e, f, e, f, e, e, f, f, f], MINUS_ONE),
        side("2^94", [e, f, e, e, e, f, f, e, e, f, f, f], PLUS_ONE),
        side("2^93", [e, f, f, f, e, f, f, f, e, f, f, f], PLUS_ONE),
        side("0 of the largest numbers", [e, f, f, f, e, f, f, f, f, e, e, f], ZERO),
    ]
}

/// With one number on each axis.
fn rows_of_powers() -> Vec<Row> {
    let along_axes = |x: i32, y: i32, z: i32| [x, 0, 0, 0, y, 0, 0, 0, z, 0, 0, 0];
    vec![
        side("2^64", along_axes(END, END, 16), PLUS_ONE),
        side("-2^64", along_axes(END, -END, 16), MINUS_ONE),
        side("2^63", along_axes(END, END, 8), PLUS_ONE),
        side("-2^63", along_axes(-END, END, 8), MINUS_ONE),
        side("2^64 - 1", along_axes(100_506_255, 42_009_217, 4_369), PLUS_ONE),
        side("1 - 2^64", along_axes(100_506_255, 42_009_217, -4_369), MINUS_ONE),
        side("2^90", along_axes(END, END, END), PLUS_ONE),
        side("-2^90", along_axes(-END, -END, -END), MINUS_ONE),
    ]
}

fn rows_of_large_products() -> Vec<Row> {
    let points = |points: Points| std::array::from_fn(|k| points[k / 3][k % 3]);
    let rows = LARGE_PRODUCTS.iter().chain(&FAR_OFF);
    rows.map(|(name, four, sign)| side(name, points(*four), *sign))
        .collect()
}

/// The points of the last rows.
pub fn points_far_off() -> Vec<Points> {
    FAR_OFF.iter().map(|(_, points, _)| *points).collect()
}

type Points = [[i32; 3]; 4];

const FAR_OFF: [(&str, Points, Answer); 7] = [
    (
        "-1 with an estimate of 3.4 times 2^40",
        [
            [-1_073_625_231, 1_073_741_451, -1_073_726_490],
            [1_073_731_132, -1_060_419_852, 1_007_448_272],
            [952_494_354, -1_073_424_491, -227_884_611],
            [927_734_005, -991_345_642, 229_348_692],
        ],
        MINUS_ONE,
    ),
    (
        "-1 with an estimate of 3.2 times 2^40",
        [
            [1_073_385_038, -1_073_741_824, -596_479_294],
            [-1_023_455_758, 879_128_986, -1_073_741_321],
            [-841_191_269, 1_073_741_699, 1_073_731_936],
            [-816_439_216, 1_048_698_179, 1_067_858_200],
        ],
        MINUS_ONE,
    ),
    (
        "1 with an estimate of -3.2 times 2^40",
        [
            [-952_862_369, -1_073_728_989, 1_073_741_821],
            [1_073_741_821, 1_073_741_824, 546_496_731],
            [1_073_328_148, 1_059_246_379, -848_849_902],
            [983_830_937, 964_954_870, -771_631_192],
        ],
        PLUS_ONE,
    ),
    (
        "1 with an estimate of -3.1 times 2^40",
        [
            [1_073_741_824, -1_073_741_198, 1_073_722_962],
            [-834_236_626, 814_741_485, -1_073_741_656],
            [-1_036_136_331, 1_073_678_739, 1_073_735_083],
            [-994_788_140, 983_491_892, -859_088_113],
        ],
        PLUS_ONE,
    ),
    (
        "0 with an estimate of 3 times 2^40",
        [
            [997_666_918, -996_494_424, 1_071_758_782],
            [-830_047_989, 392_280_349, -1_029_524_645],
            [1_061_733_119, 365_526_029, 1_071_320_486],
            [-894_114_190, -969_740_104, -1_029_086_349],
        ],
        ZERO,
    ),
    (
        "0 with an estimate of -3 times 2^40",
        [
            [368_461_871, 1_073_741_824, -1_072_696_304],
            [-1_073_741_824, 1_034_967_503, -725_567_287],
            [1_000_308_402, -987_195_475, 547_388_056],
            [-441_895_293, -1_025_969_796, 894_517_073],
        ],
        ZERO,
    ),
    (
        "0 with an estimate of 3 times 2^40, in another plane",
        [
            [916_353_590, 1_065_356_872, -1_027_234_881],
            [1_066_068_437, -398_094_855, 1_012_287_111],
            [-889_643_418, 668_456_037, -1_053_790_017],
            [-739_928_571, -794_995_690, 985_731_975],
        ],
        ZERO,
    ),
];

const LARGE_PRODUCTS: [(&str, Points, Answer); 8] = [
    (
        "1 of large products",
        [
            [-1_073_741_627, -588_505_188, 1_073_741_424],
            [-1_073_741_348, -1_073_741_218, -246_385_287],
            [1_073_741_070, 1_073_741_418, -560_552_584],
            [111_979_744, -90_374_259, -970_373_069],
        ],
        PLUS_ONE,
    ),
    (
        "-1 of large products",
        [
            [-926_430_965, 489_398_764, 13_325_285],
            [799_072_620, -1_073_741_287, 526_009_383],
            [1_073_741_403, 1_073_741_512, -1_073_741_578],
            [123_938_034, 503_799_322, -352_331_994],
        ],
        MINUS_ONE,
    ),
    (
        "2^63 of large products",
        [
            [1_073_740_859, 1_073_741_179, 140_865_398],
            [-1_073_741_150, -1_073_741_604, 1_073_741_069],
            [1_073_741_157, 483_716_304, 670_724_581],
            [367_628_066, -269_670_176, 1_019_915_833],
        ],
        PLUS_ONE,
    ),
    (
        "-2^63 - 1 of large products",
        [
            [-1_073_741_541, 1_073_741_398, 743_635_623],
            [-1_073_741_434, -13_558_792, 1_073_740_940],
            [746_811_943, -1_073_741_715, -1_073_741_484],
            [317_431_339, -186_206_613, -760_796_473],
        ],
        MINUS_ONE,
    ),
    (
        "2^64 of large products",
        [
            [1_073_741_722, -648_311_857, -191_434_754],
            [1_073_741_024, -1_073_741_171, 1_073_741_789],
            [-1_073_740_919, 1_073_741_619, 1_073_741_809],
            [1_054_917_342, -796_882_471, 306_377_417],
        ],
        PLUS_ONE,
    ),
    (
        "-2^64 of large products",
        [
            [-1_073_741_573, 827_128_800, 1_073_741_489],
            [-143_001_112, -578_043_252, 644_923_767],
            [1_073_741_603, -1_073_740_965, 1_073_741_243],
            [-582_686_046, -715_062_539, 256_755_153],
        ],
        MINUS_ONE,
    ),
    (
        "2^64 - 1 of large products",
        [
            [1_073_741_798, 1_073_740_884, -1_073_741_175],
            [-1_073_741_738, -751_427_965, 1_073_741_543],
            [-1_073_741_603, -1_073_741_029, 108_478_933],
            [223_372_526, 152_822_352, -816_883_304],
        ],
        PLUS_ONE,
    ),
    (
        "-2^64 - 1 of large products",
        [
            [-1_073_741_409, 435_207_096, -955_366_435],
            [1_073_741_576, 124_371_694, 1_073_741_283],
            [708_953_250, -1_073_741_309, 1_073_741_029],
            [-906_149_884, -575_427_602, -525_224_324],
        ],
        MINUS_ONE,
    ),
];
