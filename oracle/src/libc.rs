//! Plan 9's constants that r9 takes from its `sys` crate: rfork's flags, the
//! open modes and ERRMAX.

pub const RFNAMEG: u32 = 1 << 0;
pub const RFENVG: u32 = 1 << 1;
pub const RFFDG: u32 = 1 << 2;
pub const RFPROC: u32 = 1 << 4;
pub const RFMEM: u32 = 1 << 5;
pub const RFNOWAIT: u32 = 1 << 6;
pub const RFCNAMEG: u32 = 1 << 10;
pub const RFCENVG: u32 = 1 << 11;
pub const RFCFDG: u32 = 1 << 12;
pub const RFNOMNT: u32 = 1 << 14;

pub const OREAD: u32 = 0;
pub const OWRITE: u32 = 1;
pub const ORDWR: u32 = 2;
pub const OEXEC: u32 = 3;
pub const OTRUNC: u32 = 16;
pub const OCEXEC: u32 = 32;
pub const ORCLOSE: u32 = 64;

pub const ERRMAX: usize = 128;
