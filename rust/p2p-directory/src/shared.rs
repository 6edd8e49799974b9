//! The public items that don't depend on the sizes of keys and signatures, for the module of each
//! pair of sizes: a host of one pair names one module.

#[doc(no_inline)]
pub use crate::{
    BeforeEpochError, BitVec, CodecError, Config, ConnectError, Data, DuplicateKeyError,
    EncodedData, Error, Hostname, Ingress, KeyError, MAX_PAYLOAD_OVERHEAD, Moment,
    NotReservedError, OutOfMemory, ParseError, PayloadConfig, RefusedError, SetupError, Status,
    TrackError, ValidateError, What, WrongVerdictsError, is_global, max_size,
};
