//! A second, independent model of the receiving front end: document 01, with the requests built so
//! far, worked out on whole records held in memory. It shares no code with the front end it is compared with.
#![forbid(unsafe_code)]

pub mod bank;
pub mod build;
pub mod build_case;
pub mod calendar;
pub mod case;
pub mod checks;
pub mod count;
pub mod customer;
pub mod des;
pub mod desk;
pub mod desk_case;
pub mod fields;
pub mod file;
pub mod generate;
pub mod keys;
pub mod mac;
pub mod newer;
pub mod previous;
pub mod reply;
pub mod size;
pub mod together;
pub mod trip;

pub use bank::{set_up, Bank, Customer, KeyKind, Keys, Previous, Stamp, TABLE};
pub use file::{end, read, Answer, File};
