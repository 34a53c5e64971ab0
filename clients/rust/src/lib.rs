//! A client of a ledger: in a file, or over a Unix socket, TCP or TLS.
//!
//! ```no_run
//! use tb_client::{Client, Transfer};
//!
//! let ledger = Client::open("books.tbk")?; // or Client::connect("./ledger.sock")?
//! let sale = Transfer {
//!     id: tb_client::id(),
//!     debit_account_id: 1,
//!     credit_account_id: 2,
//!     amount: 10,
//!     ledger: 700,
//!     code: 10,
//!     ..Transfer::default()
//! };
//! for refused in ledger.create_transfers(&[sale])? {
//!     println!("{refused}");
//! }
//! # Ok::<(), tb_client::Error>(())
//! ```
//!
//! A [`Client`] registers by itself, packs what waits into requests, and sends again until the reply
//! is there; threads share it. A [`Session`] is one session that outlives the program, in a file.
//! Both are those of the client in C, whose session is the proved one.
mod client;
mod error;
mod ffi;
mod session;

#[allow(dead_code, clippy::all)]
#[path = "../../embed/rust/tb_embed.rs"]
mod tb_embed;

use std::time::Duration;

pub use client::{Call, Client, OpenOptions, Options};
pub use error::Error;
pub use session::{Answer, Saved, Session, SessionOptions, Transport};
pub use tb_embed::{
    Account, AccountFlags, CreateAccountResult, CreateTransferResult, EventResult, Operation,
    Status, Transfer, TransferFlags, AMOUNT_MAX, ITEMS_MAX,
};

/// Accounts that were not created.
pub type AccountResults = Vec<EventResult<CreateAccountResult>>;
/// Transfers that were not made.
pub type TransferResults = Vec<EventResult<CreateTransferResult>>;

/// How to reach a server.
#[derive(Clone, Debug)]
pub struct Connect {
    /// What one sending may take.
    pub timeout: Duration,
    /// TLS, for addresses of hosts.
    pub tls: Option<Tls>,
}

/// Files in PEM.
#[derive(Clone, Debug, Default)]
pub struct Tls {
    /// The authorities that certify the servers.
    pub ca: String,
    /// The client's own certificate.
    pub certificate: Option<String>,
    /// Its key, if it is in a file of its own.
    pub key: Option<String>,
}

impl Default for Connect {
    fn default() -> Connect {
        Connect {
            timeout: Duration::from_secs(5),
            tls: None,
        }
    }
}

/// A new id: 48 bits of milliseconds, then 80 random ones, above each earlier one of this process.
/// Choose it before the first sending, and keep it: a retry uses the same one.
pub fn id() -> u128 {
    unsafe { ffi::tb_id() }.into()
}

/// A maker of ids for a program with a clock or random bytes of its own.
#[derive(Debug, Default)]
pub struct Ids(ffi::Ids);

impl Ids {
    /// The next id at a time in milliseconds. `random` fills the bytes, if the time is above that
    /// of the last id.
    pub fn next_at(&mut self, milliseconds: u64, mut random: impl FnMut(&mut [u8; 10])) -> u128 {
        let (draw, context) = ffi::drawing(&mut random);
        unsafe { ffi::tb_ids_next(&mut self.0, milliseconds, draw, context) }.into()
    }
}
