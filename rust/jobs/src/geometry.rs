//! Exact products of points.

use crate::Point;

/// A point whose products fit whatever its coordinates are.
pub(crate) type Exact = [i128; 3];

pub(crate) fn exact(point: Point) -> Exact {
    point.map(i128::from)
}

pub(crate) fn minus(a: &Exact, b: &Exact) -> Exact {
    [a[0] - b[0], a[1] - b[1], a[2] - b[2]]
}

/// a . b x c, and so a x b . c
pub(crate) fn determinant(a: &Exact, b: &Exact, c: &Exact) -> i128 {
    a[0] * (b[1] * c[2] - b[2] * c[1]) - a[1] * (b[0] * c[2] - b[2] * c[0])
        + a[2] * (b[0] * c[1] - b[1] * c[0])
}

/// (b - a) x (c - a) . (d - a): six times the signed volume.
pub(crate) fn volume(a: &Exact, b: &Exact, c: &Exact, d: &Exact) -> i128 {
    determinant(&minus(b, a), &minus(c, a), &minus(d, a))
}
