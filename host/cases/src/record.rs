//! The record's layout, as document 01 gives it, with document 02's norm. The Rust has no
//! such record: a record is taken apart here, its payloads go to packed.rs, and its norm to
//! qjl.rs.

/// Bits of the map byte.
pub const LINEAR: u8 = 1;
pub const SIGNS: u8 = 2;
pub const NORM: u8 = 4;

/// Whether the map byte is one that the reader takes: no bit but these three, and a norm's
/// only beside that of signs.
pub fn defined(map: u8) -> bool {
    map & !(LINEAR | SIGNS | NORM) == 0 && map & (SIGNS | NORM) != NORM
}

/// A record in parts, before any of them is judged.
#[derive(Debug, Clone, PartialEq)]
pub struct Parts {
    pub map: u8,
    pub dim: u32,
    pub bits: u8,
    pub min: f32,
    pub max: f32,
    pub projections: u32,
    /// 1.0 where none stands.
    pub norm: f32,
    pub radii: Vec<u8>,
    pub indices: Vec<u8>,
    pub signs: Vec<u8>,
}

impl Parts {
    pub fn linear(&self) -> bool {
        self.map & LINEAR != 0
    }

    pub fn has_signs(&self) -> bool {
        self.map & SIGNS != 0
    }

    pub fn has_norm(&self) -> bool {
        self.map & NORM != 0
    }

    /// The norm, where one stands.
    pub fn given_norm(&self) -> Option<f32> {
        self.has_norm().then_some(self.norm)
    }

    /// The record's bytes.
    pub fn bytes(&self) -> Vec<u8> {
        let mut out = vec![self.map];
        out.extend_from_slice(&self.dim.to_le_bytes());
        out.push(self.bits);
        if self.linear() {
            out.extend_from_slice(&self.min.to_le_bytes());
            out.extend_from_slice(&self.max.to_le_bytes());
        }
        if self.has_signs() {
            out.extend_from_slice(&self.projections.to_le_bytes());
        }
        if self.has_norm() {
            out.extend_from_slice(&self.norm.to_le_bytes());
        }
        out.extend_from_slice(&self.radii);
        out.extend_from_slice(&self.indices);
        out.extend_from_slice(&self.signs);
        out
    }
}

/// The header's length for this map byte.
pub fn header_len(map: u8) -> usize {
    let of = |bit: u8, len: usize| if map & bit != 0 { len } else { 0 };
    6 + of(LINEAR, 8) + of(SIGNS, 4) + of(NORM, 4)
}

/// Lengths of the three payloads.
pub fn payload_lens(map: u8, dim: u32, bits: u8, projections: u32) -> [u64; 3] {
    let pairs = u64::from(dim / 2);
    let width = if map & LINEAR != 0 { 2 } else { 4 };
    let signs = if map & SIGNS != 0 { u64::from(projections).div_ceil(8) } else { 0 };
    [pairs * width, (pairs * u64::from(bits)).div_ceil(8), signs]
}

fn word(bytes: &[u8], at: usize) -> u32 {
    u32::from_le_bytes([bytes[at], bytes[at + 1], bytes[at + 2], bytes[at + 3]])
}

/// The header alone, payloads empty; None where it is cut short.
pub fn header(bytes: &[u8]) -> Option<Parts> {
    if bytes.len() < 6 || bytes.len() < header_len(bytes[0]) {
        return None;
    }
    let map = bytes[0];
    let mut at = 6;
    let (mut min, mut max, mut projections, mut norm) = (0.0, 0.0, 0, 1.0);
    if map & LINEAR != 0 {
        min = f32::from_bits(word(bytes, at));
        max = f32::from_bits(word(bytes, at + 4));
        at += 8;
    }
    if map & SIGNS != 0 {
        projections = word(bytes, at);
        at += 4;
    }
    if map & NORM != 0 {
        norm = f32::from_bits(word(bytes, at));
    }
    Some(Parts {
        map,
        dim: word(bytes, 1),
        bits: bytes[5],
        min,
        max,
        projections,
        norm,
        radii: Vec::new(),
        indices: Vec::new(),
        signs: Vec::new(),
    })
}

/// All parts; None where the lengths do not add up, so that there is nothing to hand to
/// the Rust.
pub fn split(bytes: &[u8]) -> Option<Parts> {
    let mut parts = header(bytes)?;
    let start = header_len(parts.map);
    let lens = payload_lens(parts.map, parts.dim, parts.bits, parts.projections);
    if start as u64 + lens.iter().sum::<u64>() != bytes.len() as u64 {
        return None;
    }
    let (a, b) = (start + lens[0] as usize, start + (lens[0] + lens[1]) as usize);
    parts.radii = bytes[start..a].to_vec();
    parts.indices = bytes[a..b].to_vec();
    parts.signs = bytes[b..].to_vec();
    Some(parts)
}
