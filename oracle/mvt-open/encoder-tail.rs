
// Appended to the second copy of encoder.rs by oracle/setup: windows on what is
// private there. They read; only `given` makes a value, for words that come
// from a tile script and not from an encoder, and `copy` and `emit` take a call
// apart: an encoder once more, and one emission of those that a call makes.

/// An encoder's state, as it stands between two calls.
pub struct State<'a> {
    pub count: u32,
    pub command_place: usize,
    pub raw_end: Option<(i32, i32)>,
    pub before_last: Option<(i32, i32)>,
    pub last: Option<(i32, i32)>,
    pub words: &'a [u32],
}

impl GeomEncoder<i32> {
    pub fn state(&self) -> State<'_> {
        State {
            count: self.count,
            command_place: self.cmd_offset,
            raw_end: self.xy_end.map(|p| (p.x, p.y)),
            before_last: self.pt0,
            last: self.pt1,
            words: &self.data,
        }
    }

    /// The same encoder once more. Neither sees what is done to the other.
    pub fn copy(&self) -> Self {
        GeomEncoder {
            data: self.data.clone(),
            ..*self
        }
    }

    /// One emission alone, as `add_point` makes it of an end that moved and of
    /// the point itself. Who asks holds the encoder against one that took the
    /// whole call.
    pub fn emit(&mut self, x: i32, y: i32) {
        self.add_tile_point(x, y)
            .expect("whole coordinates are accepted");
    }
}

impl GeomData {
    pub fn given(kind: GeomType, words: Vec<u32>) -> Self {
        GeomData::new(kind, words)
    }
}

/// The word of a parameter.
pub fn param_word(value: i32) -> u32 {
    ParamInt::new(value).encode()
}

/// The word of a command, given and answered as a number: made by decoding the
/// bare id and encoding it with the count. Only for ids 1, 2 and 7.
pub fn command_word(id: u32, count: u32) -> u32 {
    CommandInt::new(CommandInt::decode(id).id, count).encode()
}

/// A segment after the cuts of `clip`, and for each end the edge whose cut
/// moved it: 0 none, 1 x_min, 2 x_max, 3 y_min, 4 y_max.
#[derive(Clone, Copy, Debug, PartialEq)]
pub struct NamedClip {
    pub seg: Seg<i32>,
    pub edges: [u32; 2],
}

impl NamedClip {
    /// What `clip` does with a crossing at an edge, and the name where it
    /// replaces an end.
    fn replace(
        &mut self,
        edge: u32,
        crossing: Option<Pt<i32>>,
        outside: impl Fn(Pt<i32>) -> bool,
    ) {
        let Some(p) = crossing else { return };
        let at = if outside(self.seg.p0) {
            self.seg.p0 = p;
            0
        } else if outside(self.seg.p1) {
            self.seg.p1 = p;
            1
        } else {
            return;
        };
        assert_eq!(self.edges[at], 0, "an end was moved twice");
        self.edges[at] = edge;
    }
}

/// The cuts of `clip`, by its own crossings and in its own order, with the
/// names of the edges. Nothing where `clip` answers nothing. Who asks holds the
/// segment against `clip`, so that this cannot drift from it.
pub fn named_clip(seg: Seg<i32>, bbox: BBox<i32>) -> Option<NamedClip> {
    if !seg.bounded_by(bbox) {
        return None;
    }
    let (x_min, x_max) = (bbox.x_min(), bbox.x_max());
    let (y_min, y_max) = (bbox.y_min(), bbox.y_max());
    let mut cut = NamedClip { seg, edges: [0; 2] };
    let p = intersect_at_x(cut.seg.p0, cut.seg.p1, x_min, y_min, y_max);
    cut.replace(1, p, |end| end.x < x_min);
    let p = intersect_at_x(cut.seg.p0, cut.seg.p1, x_max, y_min, y_max);
    cut.replace(2, p, |end| end.x > x_max);
    let p = intersect_at_y(cut.seg.p0, cut.seg.p1, y_min, x_min, x_max);
    cut.replace(3, p, |end| end.y < y_min);
    let p = intersect_at_y(cut.seg.p0, cut.seg.p1, y_max, x_min, x_max);
    cut.replace(4, p, |end| end.y > y_max);
    Some(cut)
}
