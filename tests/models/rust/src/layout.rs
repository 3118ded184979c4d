//! Container bytes: formats, granules, protocol header and grant forms.

use crate::cause::{require, Refusal, HEADER_GRANT, RESERVED_HEADER};

pub const CONTAINER: usize = 256;
pub const GRANULES: usize = 12;
pub const GROUPS: usize = 4;
pub const GROUP: usize = 3;
pub const HEADER: usize = 10;
pub const PART: usize = 100;

/// The two formats of a container.
#[derive(Clone, Copy, PartialEq, Eq, Debug)]
pub enum Format {
    X,
    Y,
}

impl Format {
    /// The format of a number, if it is 0 or 1.
    pub fn from_number(number: u32) -> Option<Format> {
        match number {
            0 => Some(Format::X),
            1 => Some(Format::Y),
            _ => None,
        }
    }

    /// Whether a granule is one of the small ones, G5 and G11 of format Y.
    pub fn is_small(self, granule: usize) -> bool {
        self == Format::Y && (granule == 5 || granule == 11)
    }

    /// The size of a granule in bytes.
    pub fn granule_size(self, granule: usize) -> usize {
        match (self, granule) {
            (Format::Y, 5) => 16,
            (Format::Y, 11) => 10,
            _ => 20,
        }
    }

    /// The bytes of a granule in a container.
    pub fn granule(self, container: &[u8], granule: usize) -> &[u8] {
        let start = granule_start(granule);
        &container[start..start + self.granule_size(granule)]
    }

    /// The positions of the link header.
    pub fn link_header(self) -> Vec<usize> {
        match self {
            Format::X => (60..64).chain(124..126).collect(),
            Format::Y => (60..64).chain(120..128).chain(188..192).chain(242..246).collect(),
        }
    }

    /// The positions of the protocol header bytes P0 to P9.
    pub fn header(self) -> [usize; HEADER] {
        match self {
            Format::X => [126, 127, 188, 189, 190, 191, 252, 253, 254, 255],
            Format::Y => [246, 247, 248, 249, 250, 251, 252, 253, 254, 255],
        }
    }

    /// The granules of one container in which a message lies that starts, or goes on, at a granule.
    pub fn occupied(self, from: usize, bytes: usize) -> Vec<usize> {
        let mut granules = Vec::new();
        let mut placed = 0;
        for g in from..GRANULES {
            if placed < bytes && (g == from || !self.is_small(g)) {
                granules.push(g);
                placed += self.granule_size(g);
            }
        }
        granules
    }
}

/// The position of a granule's first byte.
pub fn granule_start(granule: usize) -> usize {
    64 * (granule / GROUP) + 20 * (granule % GROUP)
}

/// Credits granted by a container's header or by a CrdtGrant.
#[derive(Clone, Copy, PartialEq, Eq, Debug, Default)]
pub struct Grant {
    pub shared: bool,
    pub plane: u8,
    pub req: u8,
    pub rsp: u8,
    pub snp: u8,
    pub dat: u8,
}

impl Grant {
    /// The grant in five bytes of a grant form, the high half of the first apart.
    pub fn from_form(form: &[u8]) -> Grant {
        Grant {
            shared: form[0] & 1 == 1,
            plane: form[0] >> 1 & 7,
            req: form[1],
            rsp: form[2],
            snp: form[3],
            dat: form[4],
        }
    }

    /// The five bytes of the grant form.
    pub fn to_form(self) -> [u8; 5] {
        [u8::from(self.shared) + 2 * self.plane, self.req, self.rsp, self.snp, self.dat]
    }

    /// Whether the plane is one of eight, and zero beside shared credits.
    pub fn is_well_formed(self) -> bool {
        self.plane <= 7 && (!self.shared || self.plane == 0)
    }

    /// Whether all four counts are zero.
    pub fn is_empty(self) -> bool {
        self.req == 0 && self.rsp == 0 && self.snp == 0 && self.dat == 0
    }
}

/// The protocol header of a container.
#[derive(Clone, Copy, PartialEq, Eq, Debug, Default)]
pub struct Header {
    pub starts: [bool; GRANULES],
    pub grant: Grant,
}

impl Header {
    /// The header of a container, with causes 3 and 4.
    pub fn read(format: Format, container: &[u8]) -> Result<Header, Refusal> {
        let p = format.header().map(|position| container[position]);
        let reserved = [p[1] >> 4, p[2] >> 4, p[7], p[8], p[9]];
        require(reserved == [0; 5], RESERVED_HEADER, 0)?;
        let grant = Grant::from_form(&p[2..7]);
        require(grant.is_well_formed(), HEADER_GRANT, 0)?;
        let bits = u16::from(p[0]) + 256 * u16::from(p[1]);
        let mut starts = [false; GRANULES];
        for (g, start) in starts.iter_mut().enumerate() {
            *start = bits >> g & 1 == 1;
        }
        Ok(Header { starts, grant })
    }

    /// Writes the header into a container.
    pub fn write(&self, format: Format, container: &mut [u8]) {
        let mut bits = 0u16;
        for (g, start) in self.starts.iter().enumerate() {
            bits += u16::from(*start) << g;
        }
        let mut p = [0; HEADER];
        p[..2].copy_from_slice(&bits.to_le_bytes());
        p[2..7].copy_from_slice(&self.grant.to_form());
        for (position, byte) in format.header().into_iter().zip(p) {
            container[position] = byte;
        }
    }
}

/// The part of a message on one side of a container's end: a reader's carry or a writer's tail.
#[derive(Clone, Copy, PartialEq, Eq, Debug)]
pub struct Part {
    pub len: usize,
    pub bytes: [u8; PART],
}

impl Part {
    /// No part of any message.
    pub fn none() -> Part {
        Part { len: 0, bytes: [0; PART] }
    }

    /// A part of at most 100 bytes, with zeros behind.
    pub fn of(part: &[u8]) -> Part {
        let mut bytes = [0; PART];
        bytes[..part.len()].copy_from_slice(part);
        Part { len: part.len(), bytes }
    }

    /// The bytes of the message.
    pub fn message(&self) -> &[u8] {
        &self.bytes[..self.len]
    }

    /// Whether the length is 0, 20, 40, 60, 80 or 100 and the bytes behind are zero.
    pub fn is_valid_tail(&self) -> bool {
        self.len <= PART && self.len.is_multiple_of(20) && is_zero(&self.bytes[self.len..])
    }
}

/// Whether all bytes are zero.
pub fn is_zero(bytes: &[u8]) -> bool {
    bytes.iter().all(|&byte| byte == 0)
}
