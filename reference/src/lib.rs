//! Second implementation of the KLAIM checker, door and engine, written from
//! document 01, requests No. 1, No. 3, No. 7 and No. 8 of document 02 and the
//! list of decided readings alone. The proved programs are compared with it; it
//! shares no code with them.

pub mod cases;
pub mod engine;
pub mod flow;
pub mod listing;
pub mod rows;
pub mod script;
pub mod streams;
