//! The method of a request and its answer: Vol 3 Part H, tables 2.6 and 2.8, as legacy pairing has them.

#[derive(Clone, Copy, Debug, PartialEq, Eq, PartialOrd, Ord)]
pub enum Method {
    JustWorks,
    TerminalShows,
    HeadShows,
    BothType,
    OutOfBand,
}

impl Method {
    pub fn name(self) -> &'static str {
        match self {
            Self::JustWorks => "JustWorks",
            Self::TerminalShows => "terminal shows",
            Self::HeadShows => "head shows",
            Self::BothType => "both type",
            Self::OutOfBand => "OOB",
        }
    }

    /// 1 where the method has one end type, 2 where it has both type or is OOB, else 0.
    pub fn entries(self) -> usize {
        match self {
            Self::JustWorks => 0,
            Self::TerminalShows | Self::HeadShows => 1,
            Self::BothType | Self::OutOfBand => 2,
        }
    }
}

/// Rows are the responder's I/O, columns the initiator's, in the order of their octets: DisplayOnly,
/// DisplayYesNo, KeyboardOnly, NoInputNoOutput, KeyboardDisplay.
const TABLE: [[Method; 5]; 5] = {
    use Method::{BothType as B, HeadShows as H, JustWorks as J, TerminalShows as T};
    [[J, J, H, J, H], [J, J, H, J, H], [T, T, B, J, T], [J, J, J, J, J], [T, T, H, J, T]]
};

/// Both have OOB data: that. Neither asks for protection: JustWorks. Else by what they can show and type.
pub fn choose(request: &[u8; 6], answer: &[u8; 6]) -> Option<Method> {
    if request[1] == 1 && answer[1] == 1 {
        return Some(Method::OutOfBand);
    }
    if (request[2] | answer[2]) & 4 == 0 {
        return Some(Method::JustWorks);
    }
    TABLE.get(usize::from(answer[0]))?.get(usize::from(request[0])).copied()
}
