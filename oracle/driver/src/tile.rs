//! Tile scripts, run on the second copy: its windows take words as given and
//! show tag indices. tile.rs is otherwise the Rust's own text.

use crate::numbers;
use mvt_open::{Error, Feature, GeomData, GeomType, Layer, Tile};

/// The most bytes of a text, from document 01.
const TEXT_LIMIT: usize = 1_024;

/// Why a script is outside the comparison.
type Outside = &'static str;

/// A value to tag with.
enum Value {
    Text(String),
    Float(f32),
    Double(f64),
    Int(i64),
    Uint(u64),
    Sint(i64),
    Bool(bool),
}

/// An operation, read and found to be one that the Rust can be asked.
enum Operation {
    Create(u32, String),
    Open(GeomType, Vec<u32>),
    SetId(u64),
    Tag(String, Value),
    Close,
    Abandon,
    Add,
}

/// The script's numbers not yet read.
struct Reader<'a>(&'a [u32]);

impl Reader<'_> {
    fn number(&mut self) -> Result<u32, Outside> {
        Ok(self.numbers(1)?[0])
    }

    fn numbers(&mut self, count: usize) -> Result<&[u32], Outside> {
        let (taken, rest) = self.0.split_at_checked(count).ok_or("JOB")?;
        self.0 = rest;
        Ok(taken)
    }

    fn long(&mut self) -> Result<u64, Outside> {
        Ok(u64::from(self.number()?) | u64::from(self.number()?) << 32)
    }

    fn text(&mut self) -> Result<String, Outside> {
        let length = self.number()? as usize;
        let words = self.numbers(length.div_ceil(4))?;
        let bytes: Vec<u8> = words.iter().flat_map(|word| word.to_le_bytes()).collect();
        let (text, filling) = bytes.split_at(length);
        if filling.iter().any(|byte| *byte != 0) {
            return Err("JOB");
        }
        if length > TEXT_LIMIT {
            return Err("TEXT");
        }
        String::from_utf8(text.to_vec()).map_err(|_| "UTF8")
    }

    fn value(&mut self) -> Result<Value, Outside> {
        Ok(match self.number()? {
            1 => Value::Text(self.text()?),
            2 => Value::Float(f32::from_bits(self.number()?)),
            3 => Value::Double(f64::from_bits(self.long()?)),
            4 => Value::Int(self.long()? as i64),
            5 => Value::Uint(self.long()?),
            6 => Value::Sint(self.long()? as i64),
            7 => match self.number()? {
                0 => Value::Bool(false),
                1 => Value::Bool(true),
                _ => return Err("JOB"),
            },
            _ => return Err("JOB"),
        })
    }

    fn kind(&mut self) -> Result<Option<GeomType>, Outside> {
        Ok(match self.number()? {
            1 => Some(GeomType::Point),
            2 => Some(GeomType::Linestring),
            3 => Some(GeomType::Polygon),
            _ => None,
        })
    }

    fn operation(&mut self) -> Result<Operation, Outside> {
        Ok(match self.number()? {
            1 => Operation::Create(self.number()?, self.text()?),
            2 => {
                let kind = self.kind()?;
                let count = self.number()? as usize;
                let words = self.numbers(count)?.to_vec();
                Operation::Open(kind.ok_or("KIND")?, words)
            }
            3 => Operation::SetId(self.long()?),
            4 => Operation::Tag(self.text()?, self.value()?),
            5 => Operation::Close,
            6 => Operation::Abandon,
            7 => Operation::Add,
            _ => return Err("JOB"),
        })
    }
}

/// What the script has at hand. The Rust's ownership rules out every use that
/// document 01 refuses as TURN, so such a script cannot be put to it.
enum Hand {
    Nothing,
    /// The Rust has taken the layer with its refusal; document 01 gives it back.
    Lost,
    Layer(Layer),
    Feature(Feature),
}

/// What a script comes to.
struct Answer {
    /// For each operation 0, or the number of the refusal.
    outcomes: Vec<u32>,
    /// Key index and value index of every tag, by turns.
    tags: Vec<u32>,
    bytes: Vec<u8>,
}

/// Runs a script, or tells why and at which operation it is outside.
fn answer(script: &[u8]) -> Result<Answer, String> {
    let numbers = numbers(script).ok_or("outside JOB at 0")?;
    let mut reader = Reader(&numbers);
    let extent = reader
        .number()
        .map_err(|name| format!("outside {name} at 0"))?;
    let mut tile = Tile::new(extent);
    assert_eq!(tile.extent(), extent);
    let mut answer = Answer {
        outcomes: Vec::new(),
        tags: Vec::new(),
        bytes: Vec::new(),
    };
    let mut hand = Hand::Nothing;
    while !reader.0.is_empty() {
        let outside = |name| format!("outside {name} at {}", answer.outcomes.len() + 1);
        let operation = reader.operation().map_err(outside)?;
        let (next, outcome) =
            perform(&mut tile, hand, operation, &mut answer.tags).map_err(outside)?;
        hand = next;
        answer.outcomes.push(outcome);
    }
    answer.bytes = tile.to_bytes().expect("a tile has bytes");
    // The Rust's other ways to the same bytes and figures must agree.
    let mut written = Vec::new();
    tile.write_to(&mut written).expect("memory takes bytes");
    assert_eq!(written, answer.bytes);
    assert_eq!(tile.compute_size(), answer.bytes.len());
    Ok(answer)
}

/// Performs one operation: what is then at hand, and 0 or a refusal's number.
fn perform(
    tile: &mut Tile,
    hand: Hand,
    operation: Operation,
    tags: &mut Vec<u32>,
) -> Result<(Hand, u32), Outside> {
    let hand = match (operation, hand) {
        (Operation::Create(extent, name), _) => {
            // A layer takes its extent from the tile that creates it.
            let layer = Tile::new(extent).create_layer(&name);
            assert_eq!(layer.name(), Some(name.as_str()));
            Hand::Layer(layer)
        }
        (_, Hand::Lost) => return Err("LOST"),
        (Operation::Open(kind, words), Hand::Layer(layer)) => {
            let geometry = GeomData::given(kind, words.clone());
            assert_eq!(
                (geometry.len(), geometry.is_empty()),
                (words.len(), words.is_empty())
            );
            Hand::Feature(layer.into_feature(geometry))
        }
        (Operation::SetId(id), Hand::Feature(mut feature)) => {
            feature.set_id(id);
            Hand::Feature(feature)
        }
        (Operation::Tag(key, value), Hand::Feature(mut feature)) => {
            let before = feature.num_tags();
            match value {
                Value::Text(text) => feature.add_tag_string(&key, &text),
                Value::Float(number) => feature.add_tag_float(&key, number),
                Value::Double(number) => feature.add_tag_double(&key, number),
                Value::Int(number) => feature.add_tag_int(&key, number),
                Value::Uint(number) => feature.add_tag_uint(&key, number),
                Value::Sint(number) => feature.add_tag_sint(&key, number),
                Value::Bool(truth) => feature.add_tag_bool(&key, truth),
            }
            tags.extend(&feature.tag_words()[before..]);
            Hand::Feature(feature)
        }
        (Operation::Close, Hand::Feature(feature)) => {
            let layer = feature.into_layer();
            assert_ne!(layer.num_features(), 0);
            Hand::Layer(layer)
        }
        (Operation::Abandon, Hand::Feature(feature)) => Hand::Layer(feature.layer()),
        (Operation::Add, Hand::Layer(layer)) => {
            let layers = tile.num_layers();
            match tile.add_layer(layer) {
                Ok(()) => assert_eq!(tile.num_layers(), layers + 1),
                Err(Error::WrongExtent()) => return Ok((Hand::Lost, 13)),
                Err(Error::DuplicateName()) => return Ok((Hand::Lost, 14)),
                Err(other) => panic!("adding a layer has no such refusal: {other}"),
            }
            Hand::Nothing
        }
        _ => return Err("TURN"),
    };
    Ok((hand, 0))
}

fn outcome_text(outcome: &u32) -> String {
    match outcome {
        0 => "ok".into(),
        number => format!("refused {number}"),
    }
}

fn hex(bytes: &[u8]) -> String {
    bytes.iter().map(|byte| format!("{byte:02x}")).collect()
}

/// Outcomes, tag indices and bytes, or `outside` and why.
pub fn answer_line(script: &[u8]) -> String {
    let answer = match answer(script) {
        Ok(answer) => answer,
        Err(outside) => return outside,
    };
    let outcomes: String = answer
        .outcomes
        .iter()
        .map(|o| format!(" {}", outcome_text(o)))
        .collect();
    let tags: String = answer
        .tags
        .iter()
        .map(|index| format!(" {index}"))
        .collect();
    let bytes = &answer.bytes;
    let line = format!(
        "outcomes{outcomes}; tags{tags}; bytes {} {}",
        bytes.len(),
        hex(bytes)
    );
    line.trim_end().into()
}

/// The same as our program prints it: a line for each operation, then the
/// bytes, 32 to a line.
pub fn program_output(script: &[u8]) -> String {
    let answer = match answer(script) {
        Ok(answer) => answer,
        Err(outside) => return outside + "\n",
    };
    let outcomes: String = answer
        .outcomes
        .iter()
        .map(|o| outcome_text(o) + "\n")
        .collect();
    let lines: String = answer
        .bytes
        .chunks(32)
        .map(|line| hex(line) + "\n")
        .collect();
    format!("{outcomes}bytes {}\n{lines}", answer.bytes.len())
}
