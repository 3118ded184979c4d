//! Message heads: kinds, sizes, right heads and places.

use crate::layout::{is_zero, Format, Grant};

/// What type and op select.
#[derive(Clone, Copy, PartialEq, Eq, Debug)]
pub enum Kind {
    ReqS,
    ReqL,
    Resp,
    Resp2,
    Snoop,
    DataS,
    DataL,
    WrReqDataS,
    WrReqDataL,
    LinkStatus,
    Activation,
    CrdtGrant,
    Connect,
    Property,
}

/// The values of an Activation, counted from 1.
pub const ACTIVATIONS: u8 = 5;

pub const KINDS: [Kind; 14] = [
    Kind::ReqS,
    Kind::ReqL,
    Kind::Resp,
    Kind::Resp2,
    Kind::Snoop,
    Kind::DataS,
    Kind::DataL,
    Kind::WrReqDataS,
    Kind::WrReqDataL,
    Kind::LinkStatus,
    Kind::Activation,
    Kind::CrdtGrant,
    Kind::Connect,
    Kind::Property,
];

/// What a message pays: credits, or nothing.
#[derive(Clone, Copy, PartialEq, Eq, Debug)]
pub enum Charge {
    Req,
    Rsp,
    Snp,
    Dat,
    Nothing,
}

pub const CHARGES: [Charge; 5] = [Charge::Req, Charge::Rsp, Charge::Snp, Charge::Dat, Charge::Nothing];

impl Kind {
    /// The kind of a message, from its type in byte 0 and, in a MiscU, its op in byte 1.
    pub fn of(message: &[u8]) -> Option<Kind> {
        match (message.first()? & 15, message.get(1)) {
            (1, _) => Some(Kind::ReqS),
            (2, _) => Some(Kind::ReqL),
            (3, _) => Some(Kind::Resp),
            (4, _) => Some(Kind::Resp2),
            (5, _) => Some(Kind::Snoop),
            (6, _) => Some(Kind::DataS),
            (7, _) => Some(Kind::DataL),
            (8, _) => Some(Kind::WrReqDataS),
            (9, _) => Some(Kind::WrReqDataL),
            (10, Some(0)) => Some(Kind::LinkStatus),
            (10, Some(1)) => Some(Kind::Activation),
            (10, Some(2)) => Some(Kind::CrdtGrant),
            (10, Some(3)) => Some(Kind::Connect),
            (10, Some(4)) => Some(Kind::Property),
            _ => None,
        }
    }

    /// The type and, in a MiscU, the op.
    pub fn code(self) -> (u8, Option<u8>) {
        match self {
            Kind::ReqS => (1, None),
            Kind::ReqL => (2, None),
            Kind::Resp => (3, None),
            Kind::Resp2 => (4, None),
            Kind::Snoop => (5, None),
            Kind::DataS => (6, None),
            Kind::DataL => (7, None),
            Kind::WrReqDataS => (8, None),
            Kind::WrReqDataL => (9, None),
            Kind::LinkStatus => (10, Some(0)),
            Kind::Activation => (10, Some(1)),
            Kind::CrdtGrant => (10, Some(2)),
            Kind::Connect => (10, Some(3)),
            Kind::Property => (10, Some(4)),
        }
    }

    /// The size in bytes.
    pub fn size(self) -> usize {
        match self {
            Kind::Resp | Kind::LinkStatus | Kind::Activation | Kind::Connect => 10,
            Kind::CrdtGrant => 16,
            Kind::ReqS | Kind::Resp2 | Kind::Snoop | Kind::Property => 20,
            Kind::ReqL => 40,
            Kind::DataS => 80,
            Kind::DataL | Kind::WrReqDataS => 100,
            Kind::WrReqDataL => 120,
        }
    }

    /// Whether the type is MiscU.
    pub fn is_misc(self) -> bool {
        self.code().0 == 10
    }

    /// Whether the message is a response.
    pub fn is_response(self) -> bool {
        matches!(self, Kind::Resp | Kind::Resp2)
    }

    /// Whether the message pays a REQ and a DAT.
    pub fn is_push(self) -> bool {
        matches!(self, Kind::WrReqDataS | Kind::WrReqDataL)
    }

    /// What the message pays.
    pub fn charges(self) -> &'static [Charge] {
        match self {
            Kind::ReqS | Kind::ReqL => &[Charge::Req],
            Kind::Resp | Kind::Resp2 => &[Charge::Rsp],
            Kind::Snoop => &[Charge::Snp],
            Kind::DataS | Kind::DataL => &[Charge::Dat],
            Kind::WrReqDataS | Kind::WrReqDataL => &[Charge::Req, Charge::Dat],
            _ => &[Charge::Nothing],
        }
    }

    /// What the message counts for in the limit of four responses and in what it pays.
    pub fn responses(self) -> usize {
        match self {
            Kind::Resp => 1,
            Kind::Resp2 => 2,
            _ => 0,
        }
    }

    /// Whether a message of this kind may begin at a granule.
    pub fn may_begin_at(self, format: Format, granule: usize) -> bool {
        if self == Kind::LinkStatus {
            return granule == 0;
        }
        if format.is_small(granule) {
            let fits = self.size() <= format.granule_size(granule);
            return self == Kind::Resp || self.is_misc() && fits;
        }
        true
    }

    /// How many values bits 4 to 7 of byte 0 have, counted from 0.
    pub fn flag_values(self) -> u8 {
        match self {
            Kind::ReqS | Kind::ReqL | Kind::WrReqDataS | Kind::WrReqDataL => 16,
            Kind::DataS | Kind::DataL => 2,
            _ => 1,
        }
    }

    /// Whether the head bits and bytes are right, from the message's bytes in its first granule.
    pub fn is_well_headed(self, message: &[u8]) -> bool {
        let rest_right = match self {
            Kind::WrReqDataS | Kind::WrReqDataL => message[1] <= 1,
            Kind::Activation => (1..=ACTIVATIONS).contains(&message[2]),
            Kind::CrdtGrant => is_grant_right(message),
            _ => true,
        };
        message[0] >> 4 < self.flag_values() && rest_right
    }
}

/// Whether bytes 2 to 6 of a CrdtGrant are a right grant form and bytes 7 to 15 are zero.
fn is_grant_right(message: &[u8]) -> bool {
    message[2] >> 4 == 0 && grant(message).is_well_formed() && is_zero(&message[7..16])
}

/// The grant of a CrdtGrant.
pub fn grant(message: &[u8]) -> Grant {
    Grant::from_form(&message[2..7])
}

/// Whether bit 4 of byte 0 is set.
pub fn is_shared(message: &[u8]) -> bool {
    message[0] >> 4 & 1 == 1
}

/// Bits 5 to 7 of byte 0.
pub fn plane(message: &[u8]) -> usize {
    usize::from(message[0] >> 5)
}

/// Whether shared DAT pays for a WrReqData.
pub fn is_data_shared(message: &[u8]) -> bool {
    message[1] & 1 == 1
}
