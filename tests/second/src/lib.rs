//! A second implementation of the gateway rules, written from documents 01 and 02,
//! RFC 9433, the layout of the table octets and the C interface.
//!
//! - [`translate`]: the two calls, [`translate_ipv6`] and [`translate_ipv4`];
//! - [`icmp`]: the ICMPv6 message about a packet that the IPv6 call refused;
//! - [`burst`]: up to 32 packets a call;
//! - [`table`]: the table octets and what makes a table sound;
//! - [`fault`]: which condition a table breaks first;
//! - [`matching`]: whether the tables of a trip fit;
//! - [`ipv6`], [`ipv4`], [`udp`], [`gtpu`], [`args`]: what is read;
//! - [`outgoing`]: what is written;
//! - [`loss`], [`sequence`]: lost sequence numbers, and the readers of those numbers;
//! - [`answer`]: the answer numbers and the packed answer;
//! - [`generate`], [`coverage`], [`tally`], [`edges`], [`vectors`], [`worked`],
//!   [`trips`], [`program`]: cases and checks;
//! - [`command`]: what the programs share.

pub mod answer;
pub mod args;
pub mod burst;
pub mod command;
pub mod coverage;
pub mod edges;
pub mod fault;
pub mod generate;
pub mod gtpu;
pub mod icmp;
pub mod ipv4;
pub mod ipv6;
pub mod loss;
pub mod matching;
pub mod outgoing;
pub mod program;
pub mod rng;
pub mod sequence;
pub mod table;
pub mod tally;
pub mod translate;
pub mod trips;
pub mod udp;
pub mod vectors;
pub mod wire;
pub mod worked;

pub use answer::{Answer, Refusal};
pub use generate::{Call, Case, Kind};
pub use table::Table;
pub use translate::{translate_ipv4, translate_ipv6};
