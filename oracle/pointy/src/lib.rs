//! A STAND-IN for the crate `pointy`, which cannot be had here.
//!
//! It has only what the Rust files use to compile and to run on `i32` with a
//! box and without a transform. Nothing here is pointy's text or was checked
//! against it; `bounded_by` is the rule that document 01 takes.

use std::marker::PhantomData;
use std::ops::Mul;

/// A coordinate: a plain value that can be copied and compared.
pub trait Num: Copy + Default + PartialEq + PartialOrd {}

impl Num for i32 {}
impl Num for f32 {}
impl Num for f64 {}

/// A point.
#[derive(Clone, Copy, Debug, Default, PartialEq)]
pub struct Pt<T> {
    pub x: T,
    pub y: T,
}

impl<T> From<(T, T)> for Pt<T> {
    fn from((x, y): (T, T)) -> Self {
        Pt { x, y }
    }
}

/// A segment from `p0` to `p1`.
#[derive(Clone, Copy, Debug, PartialEq)]
pub struct Seg<T> {
    pub p0: Pt<T>,
    pub p1: Pt<T>,
}

impl<T: Num> Seg<T> {
    pub fn new(p0: Pt<T>, p1: Pt<T>) -> Self {
        Seg { p0, p1 }
    }

    /// Named by the float paths only, which the port leaves out.
    pub fn clip(self, _bbox: BBox<T>) -> Option<Self> {
        unimplemented!("the stand-in for pointy cuts no float segments")
    }
}

/// An upright box. The default is 0..0 both ways, which document 01 refuses,
/// so no compared job meets it.
#[derive(Clone, Copy, Debug, Default, PartialEq)]
pub struct BBox<T> {
    x_min: T,
    x_max: T,
    y_min: T,
    y_max: T,
}

impl<T: Num> BBox<T> {
    pub fn new(x_min: T, x_max: T, y_min: T, y_max: T) -> Self {
        BBox {
            x_min,
            x_max,
            y_min,
            y_max,
        }
    }

    pub fn x_min(&self) -> T {
        self.x_min
    }

    pub fn x_max(&self) -> T {
        self.x_max
    }

    pub fn y_min(&self) -> T {
        self.y_min
    }

    pub fn y_max(&self) -> T {
        self.y_max
    }
}

/// Asking whether something is bounded by a box.
pub trait Bounded<T: Num> {
    fn bounded_by(self, bbox: BBox<T>) -> bool;
}

impl Bounded<i32> for Seg<i32> {
    fn bounded_by(self, bbox: BBox<i32>) -> bool {
        if cfg!(feature = "rule-always") {
            true
        } else if cfg!(feature = "rule-exact") {
            overlaps(self, bbox) && line_meets(self, bbox)
        } else if cfg!(feature = "rule-strict") {
            overlaps_strictly(self, bbox)
        } else {
            overlaps(self, bbox)
        }
    }
}

/// Document 01's rule: the segment's bounding rectangle and the box overlap,
/// edges counted.
fn overlaps(seg: Seg<i32>, bbox: BBox<i32>) -> bool {
    seg.p0.x.min(seg.p1.x) <= bbox.x_max
        && seg.p0.x.max(seg.p1.x) >= bbox.x_min
        && seg.p0.y.min(seg.p1.y) <= bbox.y_max
        && seg.p0.y.max(seg.p1.y) >= bbox.y_min
}

/// The same, edges not counted.
fn overlaps_strictly(seg: Seg<i32>, bbox: BBox<i32>) -> bool {
    seg.p0.x.min(seg.p1.x) < bbox.x_max
        && seg.p0.x.max(seg.p1.x) > bbox.x_min
        && seg.p0.y.min(seg.p1.y) < bbox.y_max
        && seg.p0.y.max(seg.p1.y) > bbox.y_min
}

/// Whether the line through the segment meets the closed box: its corners are
/// not all strictly on one side. With `overlaps` this is exact intersection.
fn line_meets(seg: Seg<i32>, bbox: BBox<i32>) -> bool {
    let side = |x: i32, y: i32| {
        let (ax, ay) = (i128::from(seg.p0.x), i128::from(seg.p0.y));
        let (bx, by) = (i128::from(seg.p1.x), i128::from(seg.p1.y));
        (bx - ax) * (i128::from(y) - ay) - (by - ay) * (i128::from(x) - ax)
    };
    let sides = [
        side(bbox.x_min, bbox.y_min),
        side(bbox.x_min, bbox.y_max),
        side(bbox.x_max, bbox.y_min),
        side(bbox.x_max, bbox.y_max),
    ];
    !(sides.iter().all(|s| *s > 0) || sides.iter().all(|s| *s < 0))
}

/// The identity: jobs have no transform.
#[derive(Clone, Copy, Debug, Default, PartialEq)]
pub struct Transform<T>(PhantomData<T>);

impl<T: Num> Mul<(T, T)> for Transform<T> {
    type Output = Pt<T>;

    fn mul(self, xy: (T, T)) -> Pt<T> {
        Pt::from(xy)
    }
}
