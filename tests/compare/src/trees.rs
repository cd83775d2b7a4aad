//! Random trees that keep every rule, of every shape and kind.

use independent::annotation::{EdgeRule, Logical};
use independent::codes::physical::{self, BYTE_ARRAY, FIXED, GROUP, INT32, INT64, INT96};
use independent::codes::repetition::{self, OPTIONAL, REPEATED, REQUIRED};
use independent::codes::{converted, logical};
use independent::decimal::greatest_precision;
use independent::sheet::{MAX_NAME, SLOT};
use independent::timestamp::Unit;
use independent::tree::MAX_DEPTH;

use crate::random::Random;

/// The bytes of a slot.
pub type Slot = [u8; SLOT];

/// How the fields of a group are made.
#[derive(Clone, Copy)]
enum Shape {
    /// Parts of any size.
    Any,
    /// As many fields as may be.
    Flat,
    /// As deep as may be.
    Deep,
}

/// What stands more often than elsewhere.
#[derive(Clone, Copy)]
enum Favour {
    None,
    Lists,
    Maps,
    Groups,
}

struct Grower<'a> {
    random: &'a mut Random,
    slots: Vec<Slot>,
    max_depth: usize,
    shape: Shape,
    favour: Favour,
    /// Whether the scale of a DECIMAL may equal its precision.
    has_fractions: bool,
    /// Whether a leaf may be INT96.
    has_int96: bool,
    /// Whether a leaf may be GEOMETRY or GEOGRAPHY. One of both is not.
    has_geospatial: bool,
}

/// The slots of a random tree of so many nodes that keeps every rule of the second edition or of the third, and often
/// of both; half the time no scale equals its precision, as in the first.
pub fn tree(random: &mut Random, size: usize) -> Vec<Slot> {
    let shape = random.pick(&[Shape::Any, Shape::Any, Shape::Any, Shape::Flat, Shape::Deep]);
    grown(random, size, MAX_DEPTH, shape)
}

/// The slots of a random tree of so many nodes, most of them below one another but none deeper than a depth; it keeps
/// every rule where that is at most 32.
pub fn deep_tree(random: &mut Random, size: usize, max_depth: usize) -> Vec<Slot> {
    grown(random, size, max_depth, Shape::Deep)
}

fn grown(random: &mut Random, size: usize, max_depth: usize, shape: Shape) -> Vec<Slot> {
    let favour = random.pick(&[Favour::None, Favour::None, Favour::Lists, Favour::Maps, Favour::Groups]);
    let has_fractions = random.percent(50);
    let (has_int96, has_geospatial) =
        random.pick(&[(true, false), (true, false), (false, false), (false, true), (false, true)]);
    let slots = Vec::with_capacity(size);
    let mut grower = Grower { random, slots, max_depth, shape, favour, has_fractions, has_int96, has_geospatial };
    let name = grower.name();
    grower.push(GROUP, repetition::NONE, NO_ANNOTATION, &name);
    grower.fields(0, size - 1, 1, 0);
    grower.slots
}

/// A slot's converted type, logical type and parameters.
type Annotation = [u8; 4];

const NO_ANNOTATION: Annotation = [converted::NONE, logical::NONE, 0, 0];

impl Grower<'_> {
    fn push(&mut self, physical: u8, repetition: u8, annotation: Annotation, name: &[u8]) -> usize {
        let mut slot = [0; SLOT];
        slot[0] = physical;
        slot[1] = repetition;
        slot[2..6].copy_from_slice(&annotation);
        slot[20] = name.len() as u8;
        slot[24..24 + name.len()].copy_from_slice(name);
        self.slots.push(slot);
        self.slots.len() - 1
    }

    fn claim(&mut self, node: usize, children: usize) {
        self.slots[node][6..8].copy_from_slice(&(children as u16).to_le_bytes());
    }

    fn number(&mut self, node: usize, at: usize, number: i32) {
        self.slots[node][at..at + 4].copy_from_slice(&number.to_le_bytes());
    }

    /// Fields of a node, at a depth, of so many nodes in all; at least so many fields.
    fn fields(&mut self, parent: usize, size: usize, depth: usize, least: usize) {
        let mut left = size;
        let mut count = 0;
        while left > 0 {
            let most = if count + 1 < least { left - (least - count - 1) } else { left };
            let part = match self.shape {
                _ if depth == self.max_depth => 1,
                Shape::Flat if self.random.percent(80) => 1,
                Shape::Deep if self.random.percent(90) => most,
                _ => self.random.between(1, most),
            };
            let repetition = self.random.pick(&[REQUIRED, OPTIONAL, REPEATED]);
            let name = self.name();
            self.field(part, depth, repetition, &name);
            left -= part;
            count += 1;
        }
        self.claim(parent, count);
    }

    /// A field of so many nodes.
    fn field(&mut self, size: usize, depth: usize, repetition: u8, name: &[u8]) {
        if size == 1 {
            self.leaf(repetition, name);
            return;
        }
        let (lists, maps) = match self.favour {
            Favour::None => (30, 30),
            Favour::Lists => (80, 10),
            Favour::Maps => (10, 80),
            Favour::Groups => (5, 5),
        };
        let choice = self.random.below(100);
        let single = repetition != REPEATED;
        let made = single
            && (choice < lists && self.list(size, depth, repetition, name)
                || (lists..lists + maps).contains(&choice) && self.map(size, depth, repetition, name));
        if !made {
            let node = self.push(GROUP, repetition, NO_ANNOTATION, name);
            self.fields(node, size - 1, depth + 1, 1);
        }
    }

    /// Whether one field at a depth can have so many nodes.
    fn has_room(&self, size: usize, depth: usize) -> bool {
        depth < self.max_depth || depth == self.max_depth && size == 1
    }

    /// A LIST by one of its four rules or by document 02's R-2 (5), where one gives so many nodes.
    fn list(&mut self, size: usize, depth: usize, repetition: u8, name: &[u8]) -> bool {
        let below = size - 2;
        let rule = self.random.between(1, 5);
        let fits = match rule {
            1 => below == 0,
            2 => below >= 2 && depth + 2 <= self.max_depth,
            _ => below >= 1 && self.has_room(below, depth + 2),
        };
        if !fits {
            return false;
        }
        let annotation = self.random.pick(&[
            [converted::LIST, logical::NONE, 0, 0],
            [converted::NONE, logical::LIST, 0, 0],
            [converted::LIST, logical::LIST, 0, 0],
        ]);
        let tuple = [name, b"_tuple"].concat();
        // A list whose name leaves no room for `_tuple` can have an element layer only by the name `array`.
        let of_rule_3: &[u8] = if tuple.len() <= MAX_NAME && self.random.percent(60) { &tuple } else { b"array" };
        let list = self.push(GROUP, repetition, annotation, name);
        self.claim(list, 1);
        match rule {
            1 => {
                let name = self.layer_name(name);
                self.leaf(REPEATED, &name);
            }
            2 => {
                let name = self.layer_name(name);
                let layer = self.push(GROUP, REPEATED, NO_ANNOTATION, &name);
                self.fields(layer, below, depth + 2, 2);
            }
            3 => {
                let layer = self.push(GROUP, REPEATED, NO_ANNOTATION, of_rule_3);
                self.claim(layer, 1);
                let repetition = self.random.pick(&[REQUIRED, OPTIONAL, REPEATED]);
                let name = self.name();
                self.field(below, depth + 2, repetition, &name);
            }
            _ => {
                let name = self.layer_name(name);
                let layer = self.push(GROUP, REPEATED, NO_ANNOTATION, &name);
                self.claim(layer, 1);
                let repetition = if rule == 4 { self.random.pick(&[REQUIRED, OPTIONAL]) } else { REPEATED };
                let name = self.name();
                self.field(below, depth + 2, repetition, &name);
            }
        }
        true
    }

    /// A MAP, with or without a value, where one has so many nodes.
    fn map(&mut self, size: usize, depth: usize, repetition: u8, name: &[u8]) -> bool {
        let below = size - 2;
        let key = match below {
            0 => return false,
            1 => 1,
            _ if self.random.percent(20) => below,
            _ if self.random.percent(30) => below - 1,
            _ => self.random.between(1, below - 1),
        };
        let value = below - key;
        if !self.has_room(key, depth + 2) || !self.has_room(value.max(1), depth + 2) {
            return false;
        }
        let annotation = self.random.pick(&[
            [converted::MAP, logical::NONE, 0, 0],
            [converted::NONE, logical::MAP, 0, 0],
            [converted::MAP, logical::MAP, 0, 0],
            [converted::MAP_KEY_VALUE, logical::NONE, 0, 0],
        ]);
        let map = self.push(GROUP, repetition, annotation, name);
        self.claim(map, 1);
        let marked = self.random.pick(&[converted::NONE, converted::MAP_KEY_VALUE]);
        let name = self.random.pick(&[&b"key_value"[..], b"map", b"array"]);
        let layer = self.push(GROUP, REPEATED, [marked, logical::NONE, 0, 0], name);
        self.claim(layer, if value > 0 { 2 } else { 1 });
        let name = self.name();
        self.field(key, depth + 2, REQUIRED, &name);
        if value > 0 {
            let repetition = self.random.pick(&[REQUIRED, OPTIONAL]);
            let name = self.name();
            self.field(value, depth + 2, repetition, &name);
        }
        true
    }

    /// A leaf of any kind.
    fn leaf(&mut self, repetition: u8, name: &[u8]) {
        let form = self.random.below(10);
        if form == 0 {
            let physical = self.random.below(usize::from(FIXED) + 1) as u8;
            let physical = self.unless_int96(physical);
            let node = self.push(physical, repetition, NO_ANNOTATION, name);
            self.type_length(node, physical);
        } else if form == 1 {
            let node = self.push(FIXED, repetition, [converted::INTERVAL, logical::NONE, 0, 0], name);
            self.number(node, 8, 12);
        } else {
            let logical = random_logical(self.random);
            let logical = self.unless_geospatial(logical);
            let physical = random_physical(self.random, logical);
            let physical = self.unless_int96(physical);
            let (a, b) = logical.parameters();
            let image = logical.forward();
            // The converted type alone where it means the same, the logical type alone, or both.
            let alone = image.filter(|&code| Logical::backward(code) == Some(logical));
            let annotation = match (form, alone, image) {
                (2..=4, Some(code), _) => [code, logical::NONE, 0, 0],
                (5..=7, _, Some(code)) => [code, logical.code(), a, b],
                _ => [converted::NONE, logical.code(), a, b],
            };
            let node = self.push(physical, repetition, annotation, name);
            match logical {
                Logical::Uuid => self.number(node, 8, 16),
                Logical::Decimal => self.digits(node, physical),
                _ => self.type_length(node, physical),
            }
        }
    }

    /// A physical type, or INT64 in place of INT96 where no leaf may be that. What may stand on INT96 may stand on any.
    fn unless_int96(&self, physical: u8) -> u8 {
        if physical == INT96 && !self.has_int96 {
            INT64
        } else {
            physical
        }
    }

    /// A logical type, or BSON in place of GEOMETRY and GEOGRAPHY where no leaf may be that.
    fn unless_geospatial(&self, logical: Logical) -> Logical {
        if logical::is_geospatial(logical.code()) && !self.has_geospatial {
            Logical::Bson
        } else {
            logical
        }
    }

    /// A type length that a leaf without narrower rules may have.
    fn type_length(&mut self, node: usize, physical: u8) {
        if physical == FIXED {
            let random = self.random.of_any_size() as i32 & i32::MAX;
            let length = self.random.pick(&[1, 2, 12, 16, 256, 257, 65_536, i32::MAX, random.max(1)]);
            self.number(node, 8, length);
        }
    }

    /// A precision and a scale that a DECIMAL may have, and a type length where it is FIXED.
    fn digits(&mut self, node: usize, physical: u8) {
        let most = match physical {
            physical::INT32 => 9,
            physical::INT64 => 18,
            physical::FIXED => {
                let length = self.random.pick(&[1, 2, 3, 4, 8, 16, 17, 255, 256, 0]).max(self.random.between(1, 32));
                self.number(node, 8, length as i32);
                greatest_precision(length).expect("a length of the table") as usize
            }
            _ => i32::MAX as usize,
        };
        let any = self.random.between(1, most);
        let precision = self.random.pick(&[1, 2, most, any]);
        let any = self.random.below(precision);
        let greatest = if self.has_fractions { precision } else { precision - 1 };
        let scale = self.random.pick(&[0, greatest, any]);
        self.number(node, 16, precision as i32);
        self.number(node, 12, scale as i32);
    }

    fn name(&mut self) -> Vec<u8> {
        const NAMES: [&[u8]; 8] = [b"a", b"x", b"list", b"element", b"array", b"key", b"parts", b"x_tuple"];
        let kind = self.random.below(100);
        if kind < 70 {
            return self.random.pick(&NAMES).to_vec();
        }
        let length = match kind {
            70..80 => self.random.between(1, MAX_NAME),
            80..85 => MAX_NAME,
            85..90 => MAX_NAME - 6,
            _ => self.random.between(1, 8),
        };
        let mut name = vec![0; length];
        self.random.fill(&mut name);
        name
    }

    /// A name for a layer that may or may not be told from an element by it.
    fn layer_name(&mut self, list: &[u8]) -> Vec<u8> {
        let near: [&[u8]; 8] = [b"list", b"x_tuple", b"_tuple", b"arrays", b"Array", b"array", b"array\0", b"bag"];
        let tuple = [list, b"_tuple"].concat();
        let mut cut = tuple.clone();
        cut.truncate(MAX_NAME);
        match self.random.below(10) {
            0 => cut,
            1 => tuple[..cut.len() - 1].to_vec(),
            2 => tuple[1..cut.len()].to_vec(),
            3 => list.to_vec(),
            _ => self.random.pick(&near).to_vec(),
        }
    }
}

/// Whether a slot is a DECIMAL whose scale equals its precision.
pub fn is_fraction(slot: &Slot) -> bool {
    (slot[2] == converted::DECIMAL || slot[3] == logical::DECIMAL) && slot[12..16] == slot[16..20]
}

/// Whether a slot is an INT96 leaf.
pub fn is_int96(slot: &Slot) -> bool {
    slot[0] == INT96
}

/// Whether a slot is a leaf of GEOMETRY or GEOGRAPHY.
pub fn is_geospatial(slot: &Slot) -> bool {
    logical::is_geospatial(slot[3])
}

/// A logical type of a leaf with any of its parameters.
pub fn random_logical(random: &mut Random) -> Logical {
    let unit = random.pick(&[Unit::Millis, Unit::Micros, Unit::Nanos]);
    let is_adjusted_to_utc = random.percent(50);
    match random.below(13) {
        0 => Logical::String,
        1 => Logical::Enum,
        2 => Logical::Decimal,
        3 => Logical::Date,
        4 => Logical::Time { unit, is_adjusted_to_utc },
        5 => Logical::Timestamp { unit, is_adjusted_to_utc },
        6 => Logical::Integer { bit_width: random.pick(&[8, 16, 32, 64]), is_signed: random.percent(50) },
        7 => Logical::Unknown,
        8 => Logical::Json,
        9 => Logical::Bson,
        10 => Logical::Uuid,
        11 => Logical::Geometry,
        _ => Logical::Geography { edge_rule: random.pick(&EdgeRule::ALL) },
    }
}

/// A physical type that a logical type of a leaf may stand on.
pub fn random_physical(random: &mut Random, logical: Logical) -> u8 {
    match logical {
        Logical::Integer { bit_width: 64, .. } | Logical::Timestamp { .. } => INT64,
        Logical::Integer { .. } | Logical::Date | Logical::Time { unit: Unit::Millis, .. } => INT32,
        Logical::Time { .. } => INT64,
        Logical::Uuid => FIXED,
        Logical::Unknown => random.below(usize::from(FIXED) + 1) as u8,
        Logical::Decimal => random.pick(&[INT32, INT64, BYTE_ARRAY, FIXED]),
        _ => BYTE_ARRAY,
    }
}
