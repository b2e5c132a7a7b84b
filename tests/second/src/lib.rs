//! A second program for the SHTP transport, written from the documents alone.
//! "01" is the scope paper, "02" the later requests, "004" the protocol text of revision 1.8.

#![forbid(unsafe_code)]

pub mod captures;
pub mod damage;
pub mod entry;
pub mod error_list;
pub mod field;
pub mod gen;
pub mod header;
pub mod index;
pub mod listing;
pub mod message;
pub mod numbers;
pub mod odometer;
pub mod permit;
pub mod play;
pub mod receiver;
pub mod rng;
pub mod sender;
pub mod slice;
pub mod told;
pub mod totals;
pub mod trip;
pub mod wrong;
