
// ---- Added behind the published rx.rs, which names `TailByte` and `TransferKind` and does not have them. The tail byte is the Cyphal Specification's: start
// 128, end 64, toggle 32, the transfer ID in the low five bits.

#[derive(Debug, Clone, Copy)]
pub(crate) struct TailByte {
    pub start: bool,
    pub end: bool,
    pub toggle: bool,
    pub transfer_id: CanTransferId,
}

impl TailByte {
    pub fn parse(byte: u8) -> Self {
        TailByte { start: byte & 128 != 0, end: byte & 64 != 0, toggle: byte & 32 != 0, transfer_id: CanTransferId::try_from(byte & 31).unwrap() }
    }
}

#[derive(Debug, Clone, Copy, PartialEq)]
pub(crate) enum TransferKind {
    Message,
    Response,
    Request,
}

impl TransferKind {
    pub fn from_header(header: &Header<CanTransport>) -> Self {
        match header {
            Header::Message(_) => TransferKind::Message,
            Header::Response(_) => TransferKind::Response,
            Header::Request(_) => TransferKind::Request,
        }
    }
}

pub mod door;
