//! What a tile says, and the lines that our program prints of it.

#[derive(Clone, Debug, Default, PartialEq)]
pub struct Tile {
    pub layers: Vec<Layer>,
}

#[derive(Clone, Debug, Default, PartialEq)]
pub struct Layer {
    pub name: Vec<u8>,
    pub version: u32,
    pub extent: u32,
    pub keys: Vec<Vec<u8>>,
    pub values: Vec<Value>,
    pub features: Vec<Feature>,
}

/// A value; doubles and floats by their bits.
#[derive(Clone, Debug, PartialEq)]
pub enum Value {
    Empty,
    Text(Vec<u8>),
    Float(u32),
    Double(u64),
    Int(i64),
    Uint(u64),
    Sint(i64),
    Bool(bool),
}

#[derive(Clone, Debug, Default, PartialEq)]
pub struct Feature {
    pub id: Option<u64>,
    pub kind: u32,
    pub tags: Vec<u32>,
    pub geometry: Vec<u32>,
}

/// A text between quotation marks: ASCII that can be printed as it is, other bytes as they are where the whole is UTF-8, else by their numbers.
fn quoted(text: &[u8]) -> Vec<u8> {
    let is_text = std::str::from_utf8(text).is_ok();
    let mut out = vec![b'"'];
    for &byte in text {
        match byte {
            b'"' | b'\\' => out.extend([b'\\', byte]),
            0x20..=0x7E => out.push(byte),
            0x80..=0xFF if is_text => out.push(byte),
            _ => out.extend(format!("\\x{byte:02x}").bytes()),
        }
    }
    out.push(b'"');
    out
}

fn value(value: &Value) -> Vec<u8> {
    let said = match value {
        Value::Empty => "empty".into(),
        Value::Text(text) => return [b"value text ", &quoted(text)[..]].concat(),
        Value::Float(bits) => format!("float 0x{bits:08x}"),
        Value::Double(bits) => format!("double 0x{bits:016x}"),
        Value::Int(number) => format!("int {number}"),
        Value::Uint(number) => format!("uint {number}"),
        Value::Sint(number) => format!("sint {number}"),
        Value::Bool(is_true) => format!("bool {is_true}"),
    };
    format!("value {said}").into_bytes()
}

/// A word, and each number behind a space.
fn numbers(word: &str, numbers: &[u32]) -> Vec<u8> {
    let mut out = word.to_string();
    for number in numbers {
        out += &format!(" {number}");
    }
    out.into_bytes()
}

impl Layer {
    fn lines(&self) -> Vec<Vec<u8>> {
        let counts = format!(
            " version {} extent {} keys {} values {} features {}",
            self.version,
            self.extent,
            self.keys.len(),
            self.values.len(),
            self.features.len()
        );
        let mut out = vec![[b"layer ", &quoted(&self.name)[..], counts.as_bytes()].concat()];
        for key in &self.keys {
            out.push([b"key ", &quoted(key)[..]].concat());
        }
        out.extend(self.values.iter().map(value));
        for feature in &self.features {
            let id = feature.id.map_or(String::new(), |id| format!(" id {id}"));
            out.push(format!("feature type {}{id}", feature.kind).into_bytes());
            out.push(numbers("tags", &feature.tags));
            out.push(numbers("geometry", &feature.geometry));
        }
        out
    }
}

impl Tile {
    /// The lines that our program prints, without their ends.
    pub fn lines(&self) -> Vec<Vec<u8>> {
        let mut out = vec![format!("layers {}", self.layers.len()).into_bytes()];
        out.extend(self.layers.iter().flat_map(Layer::lines));
        out
    }
}
