//! The side [a,b,c,d], the determinant whose rows are a - d, b - d, c - d: as it is, in whole numbers of 128 bits,
//! and its estimate, by the same formula in doubles; and the limits that the library relies on.

use std::ops::{Add, Mul, Sub};

pub type Point = [i32; 3];
pub type Segment = [Point; 2];
pub type Triangle = [Point; 3];

/// On the grid no estimate is farther than this from its side: 15 * 2^40.
pub const BOUND: i128 = 15 << 40;
/// No side is larger than this, in size, whose estimate is not sure: 30 * 2^40, twice the bound.
pub const LARGEST_IN_DOUBT: i128 = 30 << 40;
/// No side is larger than this, in size, that its low word tells: 2^63 - 1.
pub const LARGEST_LOW: i128 = i64::MAX as i128;
/// Where no component of a normal is larger than this, in size, three products with differences, which are at most
/// 2^31, have a sum that fits 64 bits: (2^63 - 1) / (3 * 2^31).
const NARROW_NORMAL: i128 = 1_431_655_765;

/// What the formula is calculated with. A difference of two coordinates is exact in either.
trait Number: Copy + From<i32> + Add<Output = Self> + Sub<Output = Self> + Mul<Output = Self> {}

impl Number for i128 {}
impl Number for f64 {}

/// The plane of a, b, c: a, and the normal (b - a) x (c - a).
struct Plane<N> {
    a: Point,
    normal: [N; 3],
}

fn minus<N: Number>(a: Point, b: Point) -> [N; 3] {
    [0, 1, 2].map(|k| N::from(a[k]) - N::from(b[k]))
}

/// In doubles each product, difference and sum is rounded by itself: Rust puts none of them together.
impl<N: Number> Plane<N> {
    fn of([a, b, c]: Triangle) -> Self {
        let ([ux, uy, uz], [vx, vy, vz]) = (minus::<N>(b, a), minus::<N>(c, a));
        let normal = [uy * vz - uz * vy, uz * vx - ux * vz, ux * vy - uy * vx];
        Plane { a, normal }
    }

    /// The sum goes from left to right.
    fn side(&self, d: Point) -> N {
        let ([nx, ny, nz], [x, y, z]) = (self.normal, minus::<N>(self.a, d));
        nx * x + ny * y + nz * z
    }
}

pub struct Side {
    corners: Triangle,
    d: Point,
    has_narrow_normal: bool,
    value: i128,
    estimate: f64,
}

/// The sides of some points over the plane of a triangle.
pub fn sides_over<const N: usize>(corners: Triangle, points: [Point; N]) -> [Side; N] {
    let (plane, rough_plane) = (Plane::<i128>::of(corners), Plane::<f64>::of(corners));
    let has_narrow_normal = plane.normal.iter().all(|component| component.abs() <= NARROW_NORMAL);
    points.map(|d| Side {
        corners,
        d,
        has_narrow_normal,
        value: plane.side(d),
        estimate: rough_plane.side(d),
    })
}

impl Side {
    /// Whether the low word tells the side of every point over this plane.
    pub fn has_narrow_normal(&self) -> bool {
        self.has_narrow_normal
    }

    pub fn sign(&self) -> i128 {
        self.value.signum()
    }

    /// Whether the estimate is so far from zero that its sign is the side's.
    pub fn is_sure(&self) -> bool {
        self.estimate.abs() > BOUND as f64
    }

    /// How far the estimate is from the side. An error where that is too far, or where the sign of a sure estimate is
    /// not the side's.
    pub fn checked_error(&self) -> Result<i128, String> {
        let error = (self.whole_estimate() - self.value).abs();
        let is_told_wrong = self.is_sure() && self.estimate.signum() as i128 != self.sign();
        if error > BOUND || is_told_wrong {
            return Err(format!(
                "the estimate is wrong:\n{}\n  apart {error}, at most {BOUND} is allowed",
                self.told()
            ));
        }
        Ok(error)
    }

    /// An error where a side that is left to its low word is larger than this, in size.
    pub fn check_low(&self, largest: i128) -> Result<(), String> {
        if self.value.abs() > largest {
            return Err(format!(
                "a side that is left to its low word is too large:\n{}\n  in size at most {largest} is allowed",
                self.told()
            ));
        }
        Ok(())
    }

    /// An estimate is whole, since what is rounded is, and at most some 2^95.
    fn whole_estimate(&self) -> i128 {
        self.estimate as i128
    }

    fn told(&self) -> String {
        let (corners, d) = (self.corners, self.d);
        let (value, estimate) = (self.value, self.whole_estimate());
        format!("  plane of {corners:?}\n  point {d:?}\n  side {value}\n  estimate {estimate}")
    }
}
