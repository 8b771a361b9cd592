//! What the Rust says of a job, call by call, with document 01's refusals where the Rust has none.

use mvt_open::State;
use pointy::BBox;
use std::any::Any;
use std::panic::{catch_unwind, AssertUnwindSafe};

pub const LIMIT: i32 = 1_073_741_823;
/// The most words of a geometry, from document 01.
pub const MAX_WORDS: usize = 1_048_576;

pub const JOB: u32 = 1;
pub const KIND: u32 = 2;
pub const BOX: u32 = 3;
pub const COORD: u32 = 5;
pub const EMPTY: u32 = 6;
pub const ROOM: u32 = 7;

/// A job as C hands it over, and how many words its list has room for.
#[derive(Clone, Debug)]
pub struct Job {
    pub kind: u32,
    pub edges: [i32; 4],
    pub ends: Vec<u32>,
    pub points: Vec<i32>,
    pub room: usize,
}

/// A call of the encoder.
#[derive(Clone, Copy, Debug, PartialEq)]
pub enum Call {
    Add(i32, i32),
    Complete,
}

pub fn within(n: i32) -> bool {
    (-LIMIT..=LIMIT).contains(&n)
}

pub fn good_box(edges: [i32; 4]) -> bool {
    edges[0] < edges[1] && edges[2] < edges[3] && edges.into_iter().all(within)
}

impl Job {
    /// The lists of a job file, as a caller takes it apart; nothing where the file has none.
    pub fn of_file(file: &[u8], limit: usize) -> Option<Job> {
        if file.len() % 4 != 0 || file.len() > limit {
            return None;
        }
        let number = |c: &[u8]| u32::from_le_bytes([c[0], c[1], c[2], c[3]]);
        let numbers: Vec<u32> = file.chunks(4).map(number).collect();
        let (head, rest) = numbers.split_first_chunk::<6>()?;
        let (ends, body) = rest.split_at_checked(head[5] as usize)?;
        Some(Job {
            kind: head[0],
            edges: [head[1], head[2], head[3], head[4]].map(|edge| edge as i32),
            ends: ends.to_vec(),
            points: body.iter().map(|n| *n as i32).collect(),
            room: 0,
        })
    }

    /// Document 01's checks before the first call; 0 where there is none to refuse.
    pub fn refused_at_once(&self) -> u32 {
        let ascend = self.ends.windows(2).all(|e| e[0] <= e[1]);
        let last = self.ends.last().copied();
        if self.points.len() % 2 != 0
            || !ascend
            || last.map(|e| e as usize) != Some(self.points.len() / 2)
        {
            return JOB;
        }
        if !(1..=3).contains(&self.kind) {
            return KIND;
        }
        if !good_box(self.edges) {
            return BOX;
        }
        0
    }

    /// The calls of a job that is not refused at once.
    pub fn calls(&self) -> Vec<Call> {
        let mut calls = Vec::new();
        let mut from = 0;
        for &end in &self.ends {
            for point in self.points[2 * from..2 * end as usize].chunks(2) {
                calls.push(Call::Add(point[0], point[1]));
            }
            calls.push(Call::Complete);
            from = end as usize;
        }
        calls
    }
}

fn bbox(edges: [i32; 4]) -> BBox<i32> {
    BBox::new(edges[0], edges[1], edges[2], edges[3])
}

/// The Rust's encoder, asked call by call.
pub struct Judge {
    encoder: mvt_open::GeomEncoder<i32>,
    kind: u32,
    edges: [i32; 4],
    room: usize,
}

/// What document 01 answers to a call: accepted, or a refusal with the words as they were before it.
pub enum Verdict {
    Accepted,
    Refused(u32, Vec<u32>),
}

impl Judge {
    pub fn new(kind: u32, edges: [i32; 4], room: usize) -> Self {
        use mvt_open::GeomType::{Linestring, Point, Polygon};
        let geometry = [Point, Linestring, Polygon][kind as usize - 1];
        Judge {
            encoder: mvt_open::GeomEncoder::new(geometry).bbox(bbox(edges)),
            kind,
            edges,
            room: room.min(MAX_WORDS),
        }
    }

    pub fn state(&self) -> State<'_> {
        self.encoder.state()
    }

    /// The same judge once more. Neither sees what is done to the other.
    pub fn copy(&self) -> Self {
        Judge {
            encoder: self.encoder.copy(),
            ..*self
        }
    }

    /// Whether a call may be refused as ROOM: it writes seven words at most.
    pub fn near_the_end(&self) -> bool {
        self.state().words.len() + 10 > self.room
    }

    /// The edges that move the ends of the raw segment which this call ends; none where the Rust has no raw end to cut from, or completes.
    pub fn moved(&self, call: Call) -> [u32; 2] {
        match (call, self.state().raw_end) {
            (Call::Add(x1, y1), Some((x0, y0))) if within(x1) && within(y1) => {
                named_clip([x0, y0, x1, y1], self.edges).1
            }
            _ => [0; 2],
        }
    }

    /// The points that a call emits, one after the other and not clamped yet: the ends of the raw segment that moved, then the point itself. None where it completes, or has
    /// a coordinate beyond the limit.
    pub fn emissions(&self, call: Call) -> Vec<(i32, i32)> {
        let mut points = Vec::new();
        let (x, y) = match call {
            Call::Add(x, y) if within(x) && within(y) => (x, y),
            _ => return points,
        };
        if let Some((from_x, from_y)) = self.state().raw_end {
            let ([x0, y0, x1, y1], edges) = named_clip([from_x, from_y, x, y], self.edges);
            let ends = [(x0, y0), (x1, y1)].into_iter().zip(edges);
            points.extend(ends.filter(|(_, edge)| *edge != 0).map(|(end, _)| end));
        }
        points.push((x, y));
        points
    }

    /// One emission of a call, alone.
    pub fn emit(&mut self, (x, y): (i32, i32)) {
        self.encoder.emit(x, y);
    }

    pub fn call(&mut self, call: Call) -> Verdict {
        let state = self.encoder.state();
        // Only near the end is there anything to keep.
        let before = if self.near_the_end() {
            state.words.to_vec()
        } else {
            Vec::new()
        };
        match call {
            Call::Add(x, y) => {
                if !within(x) || !within(y) {
                    return Verdict::Refused(COORD, state.words.to_vec());
                }
                self.encoder
                    .add_point(x, y)
                    .expect("whole coordinates are accepted");
            }
            Call::Complete => {
                if self.kind == 1 && state.count == 0 {
                    let before = state.words.to_vec();
                    let panicked =
                        catch_unwind(AssertUnwindSafe(|| self.encoder.complete_geom())).is_err();
                    assert!(
                        panicked,
                        "the Rust completes a point geometry without points"
                    );
                    return Verdict::Refused(EMPTY, before);
                }
                self.encoder
                    .complete_geom()
                    .expect("completing has no refusal");
            }
        }
        if self.encoder.state().words.len() > self.room {
            return Verdict::Refused(ROOM, before);
        }
        Verdict::Accepted
    }
}

/// The words as the unchanged copy gives them: the last part is completed by `encode`, the others by `complete_geom`.
pub fn words_unchanged(job: &Job) -> Vec<u32> {
    use mvt::GeomType::{Linestring, Point, Polygon};
    let geometry = [Point, Linestring, Polygon][job.kind as usize - 1];
    let mut encoder = mvt::GeomEncoder::new(geometry).bbox(bbox(job.edges));
    let calls = job.calls();
    for call in &calls[..calls.len() - 1] {
        match *call {
            Call::Add(x, y) => encoder.add_point(x, y).map(|_| ()),
            Call::Complete => encoder.complete_geom(),
        }
        .expect("an accepted job has no refusal");
    }
    geometry_words(encoder.encode().expect("encoding has no refusal"))
}

/// Whether an edge may be an end's: not moved, or it lay strictly outside that edge and lies on it now.
fn may_be(edge: u32, given: [i32; 2], now: [i32; 2], edges: [i32; 4]) -> bool {
    let [x_min, x_max, y_min, y_max] = edges;
    match edge {
        0 => now == given,
        1 => given[0] < x_min && now[0] == x_min,
        2 => given[0] > x_max && now[0] == x_max,
        3 => given[1] < y_min && now[1] == y_min,
        4 => given[1] > y_max && now[1] == y_max,
        _ => false,
    }
}

/// What the unchanged copy makes of a segment, the segment as given where it cuts nothing; and the edge that moved each end, by the second copy's window, which
/// has to come to the same segment as the unchanged copy.
pub fn named_clip(segment: [i32; 4], edges: [i32; 4]) -> ([i32; 4], [u32; 2]) {
    use mvt::CoordNum;
    use pointy::{Pt, Seg};
    let [x0, y0, x1, y1] = segment;
    let given = Seg::new(Pt::from((x0, y0)), Pt::from((x1, y1)));
    let cut = i32::clip(given, bbox(edges));
    let named = mvt_open::named_clip(given, bbox(edges));
    assert_eq!(
        named.map(|named| named.seg),
        cut,
        "the window does not cut as the Rust does"
    );
    let Some(named) = named else {
        return (segment, [0; 2]);
    };
    let ends = [[x0, y0], [x1, y1]]
        .into_iter()
        .zip([named.seg.p0, named.seg.p1]);
    for ((given, now), edge) in ends.zip(named.edges) {
        assert!(
            may_be(edge, given, [now.x, now.y], edges),
            "the window names an edge that did not move the end"
        );
    }
    let Seg { p0, p1 } = named.seg;
    ([p0.x, p0.y, p1.x, p1.y], named.edges)
}

/// A panic on the Rust's side as a difference.
pub fn panicked(panic: Box<dyn Any + Send>) -> String {
    let text = panic
        .downcast_ref::<String>()
        .map(String::as_str)
        .or_else(|| panic.downcast_ref::<&str>().copied());
    format!("the Rust panicked: {}", text.unwrap_or("no text"))
}

#[derive(Clone, PartialEq, prost::Message)]
struct TileRead {
    #[prost(message, repeated, tag = "3")]
    layers: Vec<LayerRead>,
}

#[derive(Clone, PartialEq, prost::Message)]
struct LayerRead {
    #[prost(message, repeated, tag = "2")]
    features: Vec<FeatureRead>,
}

#[derive(Clone, PartialEq, prost::Message)]
struct FeatureRead {
    #[prost(uint32, repeated, tag = "4")]
    geometry: Vec<u32>,
}

/// The words of a geometry, which the unchanged copy shows only in tile bytes.
fn geometry_words(geometry: mvt::GeomData) -> Vec<u32> {
    let mut tile = mvt::Tile::new(1);
    let layer = tile.create_layer("").into_feature(geometry).into_layer();
    tile.add_layer(layer).expect("the first layer is accepted");
    let bytes = tile.to_bytes().expect("a small tile has bytes");
    let read: TileRead = prost::Message::decode(&bytes[..]).expect("the tile reads back");
    read.layers[0].features[0].geometry.clone()
}
