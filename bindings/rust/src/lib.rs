//! The quay reader for a poller in Rust: the Tenso-M line of a weighbridge terminal, read by the proved library `libquay.a`.
//!
//! **A weight that wasn't heard never looks like a weight of nothing.** A function that can refuse answers a `Result`. Its error is a
//! [`Refusal`] with the rules paper's number. No weight here has a default.
//!
//! ```
//! use quay::{read_message, Event, Family, Load, Reader, Role, Says};
//!
//! const FAMILY: Family = Family::Of002; // of the line's terminals, said once
//! // A reply of 25.1 kg gross, not settled, cut in two; and a frame whose check is wrong.
//! let blocks: [&[u8]; 2] = [
//!     &[0xFF, 0x01, 0xC3, 0x51, 0x02],
//!     &[0x00, 0x01, 0xDE, 0xFF, 0xFF, 0x01, 0xC3, 0xE2, 0xFF, 0xFF],
//! ];
//! let mut reader = Reader::new();
//! let mut heard = Vec::new();
//! for block in blocks {
//!     let mut events = reader.feed(block);
//!     while let Some(event) = events.next() {
//!         match event {
//!             Event::Frame { body, .. } => match read_message(Role::Reply, FAMILY, body).map(|message| message.says) {
//!                 Ok(Says::Weight { load: Load::Gross, weight }) => heard.push(weight.kilograms()),
//!                 Ok(_) => {}
//!                 Err(why) => heard.push(Err(why)),
//!             },
//!             Event::Refused { why, .. } => heard.push(Err(why)),
//!         }
//!     }
//! }
//! assert_eq!(heard, [Ok(25.1), Err(quay::Refusal::CheckWrong)]);
//! ```
#![no_std]
#![deny(unsafe_code)]
#![warn(missing_docs)]

mod addresses;
mod families;
mod line;
mod listing;
mod log;
mod messages;
#[allow(unsafe_code)]
mod raw;
mod refusal;
mod weights;
mod writing;

pub use addresses::{Address, Role};
pub use families::{Family, Mode};
pub use line::{BodyPlace, Event, Events, Phase, Place, Reader, WirePlace, LONGEST_BODY};
pub use listing::{list_event, list_total, Entry, Listed, Total, LONGEST_LINE};
pub use log::{read_record, record_heard, records, step, write_record, Broken, Noted, Record, Records, RECORD_LENGTH};
pub use messages::{read_message, Load, Message, Says};
pub use refusal::Refusal;
pub use weights::{Reading, Weight};
pub use writing::{write_frame, write_message};
