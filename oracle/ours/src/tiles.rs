//! Layers and tiles of our compiled library.

#[repr(C)]
#[derive(Clone, Copy, Debug, Default, PartialEq)]
pub struct Figures {
    pub keys: usize,
    pub values: usize,
    pub texts: usize,
    pub features: usize,
}

#[repr(C)]
#[derive(Clone, Copy, Debug, Default, PartialEq)]
pub struct Layer {
    pub extent: u32,
    pub is_open: u32,
    pub is_strict: u32,
    pub name: usize,
    pub used: Figures,
    pub since: Figures,
}

#[repr(C)]
#[derive(Clone, Copy, Debug, Default, PartialEq)]
pub struct Tile {
    pub extent: u32,
    pub used: usize,
    pub layers: usize,
}

#[repr(C)]
#[derive(Clone, Copy, Debug, Default, PartialEq)]
pub struct Changed {
    pub refusal: u32,
    pub layer: Layer,
}

#[repr(C)]
#[derive(Clone, Copy, Debug, Default, PartialEq)]
pub struct Many {
    pub refusal: u32,
    pub layer: Layer,
    pub count: usize,
}

#[repr(C)]
#[derive(Clone, Copy, Debug, Default, PartialEq)]
pub struct Counted {
    pub refusal: u32,
    pub count: usize,
}

#[repr(C)]
#[derive(Clone, Copy, Debug, Default, PartialEq)]
pub struct Named {
    pub refusal: u32,
    pub start: usize,
    pub len: usize,
}

#[repr(C)]
#[derive(Clone, Copy, Debug, Default, PartialEq)]
pub struct Added {
    pub refusal: u32,
    pub tile: Tile,
}

/// The four lists of a layer, lent together.
pub struct Lists<'a> {
    pub keys: &'a mut [u32],
    pub values: &'a mut [u32],
    pub texts: &'a mut [u8],
    pub features: &'a mut [u32],
}

/// The two lists by which keys and values are looked up. One that is too short is not used.
pub struct Indexes<'a> {
    pub keys: &'a mut [u32],
    pub values: &'a mut [u32],
}

/// Whole features one behind the other: six words of `heads` each, their words and tags, and the bytes of all texts.
#[derive(Clone, Copy, Debug)]
pub struct Features<'a> {
    pub heads: &'a [u32],
    pub words: &'a [u32],
    pub tags: &'a [u32],
    pub bytes: &'a [u8],
}

/// The two lists of a tile.
pub struct TileLists<'a> {
    pub names: &'a mut [u32],
    pub bytes: &'a mut [u8],
}

/// What a tag says: a text, or the kind and the bits of another value.
#[derive(Clone, Copy, Debug)]
pub enum Value<'a> {
    Text(&'a [u8]),
    Bits(u32, u64),
}

/// What a feature is besides its lists.
#[derive(Clone, Copy, Debug)]
pub struct Head {
    pub kind: u32,
    pub has_id: u32,
    pub id: u64,
}

/// Functions on a layer: its four lists come last.
macro_rules! on_layer {
    ($($name:ident($($argument:ident: $type:ty),*) -> $answer:ty;)*) => {
        extern "C" {
            $(pub fn $name(
                layer: Layer, $($argument: $type,)*
                keys: *mut u32, keys_len: usize, values: *mut u32, values_len: usize,
                texts: *mut u8, texts_len: usize, features: *mut u32, features_len: usize,
            ) -> $answer;)*
        }
    };
}

mod c {
    use super::*;

    on_layer! {
        bp_into_feature(kind: u32, words: *const u32, words_len: usize) -> Changed;
        bp_set_id(id: u64) -> Changed;
        bp_add_tag_string(key: *const u8, key_len: usize, val: *const u8, val_len: usize) -> Changed;
        bp_add_tag_float(key: *const u8, key_len: usize, bits: u32) -> Changed;
        bp_add_tag_double(key: *const u8, key_len: usize, bits: u64) -> Changed;
        bp_add_tag_int(key: *const u8, key_len: usize, val: i64) -> Changed;
        bp_add_tag_uint(key: *const u8, key_len: usize, val: u64) -> Changed;
        bp_add_tag_sint(key: *const u8, key_len: usize, val: i64) -> Changed;
        bp_add_tag_bool(key: *const u8, key_len: usize, val: u32) -> Changed;
        bp_into_layer() -> Changed;
        bp_abandon() -> Changed;
        bp_add_feature(
            kind: u32, has_id: u32, id: u64, words: *const u32, words_len: usize,
            tags: *const u32, tags_len: usize, bytes: *const u8, bytes_len: usize
        ) -> Changed;
        bp_num_features() -> Counted;
        bp_num_tags() -> Counted;
        bp_name() -> Named;
    }

    extern "C" {
        pub fn bp_add_features(
            layer: Layer,
            heads: *const u32,
            heads_len: usize,
            words: *const u32,
            words_len: usize,
            tags: *const u32,
            tags_len: usize,
            bytes: *const u8,
            bytes_len: usize,
            keys: *mut u32,
            keys_len: usize,
            values: *mut u32,
            values_len: usize,
            texts: *mut u8,
            texts_len: usize,
            features: *mut u32,
            features_len: usize,
            key_index: *mut u32,
            key_index_len: usize,
            value_index: *mut u32,
            value_index_len: usize,
        ) -> Many;
        pub fn bp_layer_new(
            name: *const u8,
            name_len: usize,
            extent: u32,
            texts: *mut u8,
            texts_len: usize,
        ) -> Changed;
        pub fn bp_strict_layer_new(
            name: *const u8,
            name_len: usize,
            extent: u32,
            texts: *mut u8,
            texts_len: usize,
        ) -> Changed;
        pub fn bp_tile_new(extent: u32) -> Tile;
        pub fn bp_create_layer(
            tile: Tile,
            name: *const u8,
            name_len: usize,
            texts: *mut u8,
            texts_len: usize,
        ) -> Changed;
        pub fn bp_create_strict_layer(
            tile: Tile,
            name: *const u8,
            name_len: usize,
            texts: *mut u8,
            texts_len: usize,
        ) -> Changed;
        pub fn bp_add_layer(
            tile: Tile,
            layer: Layer,
            keys: *const u32,
            keys_len: usize,
            values: *const u32,
            values_len: usize,
            texts: *const u8,
            texts_len: usize,
            features: *const u32,
            features_len: usize,
            names: *mut u32,
            names_len: usize,
            bytes: *mut u8,
            bytes_len: usize,
        ) -> Added;
        pub fn bp_layer_size(
            tile: Tile,
            layer: Layer,
            keys: *const u32,
            keys_len: usize,
            values: *const u32,
            values_len: usize,
            texts: *const u8,
            texts_len: usize,
            features: *const u32,
            features_len: usize,
        ) -> Counted;
        pub fn bp_num_layers(
            tile: Tile,
            names: *const u32,
            names_len: usize,
            bytes: *const u8,
            bytes_len: usize,
        ) -> Counted;
        pub fn bp_compute_size(
            tile: Tile,
            names: *const u32,
            names_len: usize,
            bytes: *const u8,
            bytes_len: usize,
        ) -> Counted;
        pub fn bp_to_bytes(
            tile: Tile,
            names: *const u32,
            names_len: usize,
            bytes: *const u8,
            bytes_len: usize,
        ) -> Counted;
    }
}

/// A call of `on_layer` with its lists.
macro_rules! call {
    ($name:ident, $layer:expr, $lists:expr $(, $argument:expr)*) => {
        unsafe {
            c::$name(
                $layer, $($argument,)*
                $lists.keys.as_mut_ptr(), $lists.keys.len(), $lists.values.as_mut_ptr(), $lists.values.len(),
                $lists.texts.as_mut_ptr(), $lists.texts.len(), $lists.features.as_mut_ptr(), $lists.features.len(),
            )
        }
    };
}

pub fn layer(name: &[u8], extent: u32, texts: &mut [u8]) -> Changed {
    unsafe {
        c::bp_layer_new(
            name.as_ptr(),
            name.len(),
            extent,
            texts.as_mut_ptr(),
            texts.len(),
        )
    }
}

/// A layer in which a feature has a key once.
pub fn strict_layer(name: &[u8], extent: u32, texts: &mut [u8]) -> Changed {
    unsafe {
        c::bp_strict_layer_new(
            name.as_ptr(),
            name.len(),
            extent,
            texts.as_mut_ptr(),
            texts.len(),
        )
    }
}

impl Layer {
    /// What a refused new layer gives, strict or not: its name runs past its texts, so every call refuses it as STATE.
    pub fn refused() -> Layer {
        Layer {
            name: 1,
            ..Layer::default()
        }
    }

    pub fn into_feature(self, kind: u32, words: &[u32], lists: &mut Lists) -> Changed {
        call!(
            bp_into_feature,
            self,
            lists,
            kind,
            words.as_ptr(),
            words.len()
        )
    }

    pub fn set_id(self, id: u64, lists: &mut Lists) -> Changed {
        call!(bp_set_id, self, lists, id)
    }

    /// The call of the value's kind, 2 to 7 for bits.
    pub fn add_tag(self, key: &[u8], value: Value, lists: &mut Lists) -> Changed {
        let (at, len) = (key.as_ptr(), key.len());
        match value {
            Value::Text(text) => {
                call!(
                    bp_add_tag_string,
                    self,
                    lists,
                    at,
                    len,
                    text.as_ptr(),
                    text.len()
                )
            }
            Value::Bits(2, bits) => call!(bp_add_tag_float, self, lists, at, len, bits as u32),
            Value::Bits(3, bits) => call!(bp_add_tag_double, self, lists, at, len, bits),
            Value::Bits(4, bits) => call!(bp_add_tag_int, self, lists, at, len, bits as i64),
            Value::Bits(5, bits) => call!(bp_add_tag_uint, self, lists, at, len, bits),
            Value::Bits(6, bits) => call!(bp_add_tag_sint, self, lists, at, len, bits as i64),
            Value::Bits(_, bits) => call!(bp_add_tag_bool, self, lists, at, len, bits as u32),
        }
    }

    pub fn into_layer(self, lists: &mut Lists) -> Changed {
        call!(bp_into_layer, self, lists)
    }

    pub fn abandon(self, lists: &mut Lists) -> Changed {
        call!(bp_abandon, self, lists)
    }

    /// A whole feature; a tag is five words, its texts stand in `bytes`.
    pub fn add_feature(
        self,
        head: Head,
        words: &[u32],
        tags: &[u32],
        bytes: &[u8],
        lists: &mut Lists,
    ) -> Changed {
        call!(
            bp_add_feature,
            self,
            lists,
            head.kind,
            head.has_id,
            head.id,
            words.as_ptr(),
            words.len(),
            tags.as_ptr(),
            tags.len(),
            bytes.as_ptr(),
            bytes.len()
        )
    }

    /// Whole features up to the first that is refused.
    pub fn add_features(self, given: Features, lists: &mut Lists, indexes: &mut Indexes) -> Many {
        unsafe {
            c::bp_add_features(
                self,
                given.heads.as_ptr(),
                given.heads.len(),
                given.words.as_ptr(),
                given.words.len(),
                given.tags.as_ptr(),
                given.tags.len(),
                given.bytes.as_ptr(),
                given.bytes.len(),
                lists.keys.as_mut_ptr(),
                lists.keys.len(),
                lists.values.as_mut_ptr(),
                lists.values.len(),
                lists.texts.as_mut_ptr(),
                lists.texts.len(),
                lists.features.as_mut_ptr(),
                lists.features.len(),
                indexes.keys.as_mut_ptr(),
                indexes.keys.len(),
                indexes.values.as_mut_ptr(),
                indexes.values.len(),
            )
        }
    }

    pub fn num_features(self, lists: &mut Lists) -> Counted {
        call!(bp_num_features, self, lists)
    }

    pub fn num_tags(self, lists: &mut Lists) -> Counted {
        call!(bp_num_tags, self, lists)
    }

    pub fn name(self, lists: &mut Lists) -> Named {
        call!(bp_name, self, lists)
    }
}

pub fn tile(extent: u32) -> Tile {
    unsafe { c::bp_tile_new(extent) }
}

/// The arguments of a question to a tile.
macro_rules! ask {
    ($name:ident, $tile:expr, $lists:expr) => {
        unsafe {
            c::$name(
                $tile,
                $lists.names.as_ptr(),
                $lists.names.len(),
                $lists.bytes.as_ptr(),
                $lists.bytes.len(),
            )
        }
    };
}

impl Tile {
    pub fn create_layer(self, name: &[u8], texts: &mut [u8]) -> Changed {
        unsafe {
            c::bp_create_layer(
                self,
                name.as_ptr(),
                name.len(),
                texts.as_mut_ptr(),
                texts.len(),
            )
        }
    }

    pub fn create_strict_layer(self, name: &[u8], texts: &mut [u8]) -> Changed {
        unsafe {
            c::bp_create_strict_layer(
                self,
                name.as_ptr(),
                name.len(),
                texts.as_mut_ptr(),
                texts.len(),
            )
        }
    }

    pub fn add_layer(self, layer: Layer, lists: &Lists, tile: &mut TileLists) -> Added {
        unsafe {
            c::bp_add_layer(
                self,
                layer,
                lists.keys.as_ptr(),
                lists.keys.len(),
                lists.values.as_ptr(),
                lists.values.len(),
                lists.texts.as_ptr(),
                lists.texts.len(),
                lists.features.as_ptr(),
                lists.features.len(),
                tile.names.as_mut_ptr(),
                tile.names.len(),
                tile.bytes.as_mut_ptr(),
                tile.bytes.len(),
            )
        }
    }

    /// How many bytes adding the layer takes.
    pub fn layer_size(self, layer: Layer, lists: &Lists) -> Counted {
        unsafe {
            c::bp_layer_size(
                self,
                layer,
                lists.keys.as_ptr(),
                lists.keys.len(),
                lists.values.as_ptr(),
                lists.values.len(),
                lists.texts.as_ptr(),
                lists.texts.len(),
                lists.features.as_ptr(),
                lists.features.len(),
            )
        }
    }

    pub fn num_layers(self, lists: &TileLists) -> Counted {
        ask!(bp_num_layers, self, lists)
    }

    pub fn compute_size(self, lists: &TileLists) -> Counted {
        ask!(bp_compute_size, self, lists)
    }

    pub fn to_bytes(self, lists: &TileLists) -> Counted {
        ask!(bp_to_bytes, self, lists)
    }
}
