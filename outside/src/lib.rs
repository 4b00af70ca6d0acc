//! States, good and damaged, an own reading of docs/STATE.md and
//! docs/MACHINE.md beside them, and `size`, `make` and `check` tried on them.

pub mod bench;
pub mod check_test;
pub mod damage;
pub mod encode;
pub mod layout;
pub mod library;
pub mod machine;
pub mod make_test;
pub mod pairs;
pub mod random;
pub mod reader;
pub mod simulate;
pub mod slips;
pub mod trial;
