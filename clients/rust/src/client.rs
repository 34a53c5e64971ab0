//! A client that threads share.
use std::ffi::{c_void, CString};
use std::ptr::{null, null_mut};
use std::sync::atomic::{AtomicBool, Ordering};
use std::sync::Arc;
use std::time::Duration;

use crate::error::Error;
use crate::ffi;
use crate::session::{call, connecting, Answer, Asked};
use crate::tb_embed::{Account, Operation, Transfer};
use crate::{AccountResults, Connect, TransferResults};

/// Options of a client.
#[derive(Clone, Debug)]
pub struct Options {
    pub connect: Connect,
    /// Requests in flight at once, 1 to 64; with 1 they are executed in the order of the calls.
    pub sessions: i32,
    /// What a call may take. Without it a call waits until its reply is there.
    pub limit: Duration,
}

impl Default for Options {
    fn default() -> Options {
        Options {
            connect: Connect::default(),
            sessions: 1,
            limit: Duration::MAX,
        }
    }
}

/// How a file is opened.
#[derive(Clone, Debug)]
pub struct OpenOptions {
    /// The path of tbd. Without it: that of the variable TBD, or on PATH.
    pub program: Option<String>,
    /// The rules by which a file is made, and was: places for clients, and the profile, 1 or 2.
    pub clients_max: i32,
    pub profile: i32,
    /// Make no file: one that is not there is a fault.
    pub existing: bool,
    /// Cut off torn bytes at a start without a copy of them.
    pub drop_torn: bool,
    /// For which a file is waited that another process has open.
    pub lock_timeout: Duration,
    /// Of the ledger's time before this computer's clock; any, without it.
    pub ahead_max: Option<Duration>,
    /// Gets how many MB of how many were read of a large file, and at the end all of them.
    pub progress: Option<fn(u32, u32)>,
    /// What a call may take. Without it a call waits until its reply is there.
    pub limit: Duration,
}

impl Default for OpenOptions {
    fn default() -> OpenOptions {
        OpenOptions {
            program: None,
            clients_max: 64,
            profile: 1,
            existing: false,
            drop_torn: false,
            lock_timeout: Duration::from_secs(5),
            ahead_max: Some(Duration::from_secs(60)),
            progress: None,
            limit: Duration::MAX,
        }
    }
}

/// A client that threads share. Dropping it closes it.
pub struct Client {
    inner: Arc<Inner>,
    limit: Duration,
}

/// The library's client, which lives until its last call was dropped.
struct Inner(*mut ffi::Client);

unsafe impl Send for Inner {}
unsafe impl Sync for Inner {}

impl Drop for Inner {
    fn drop(&mut self) {
        unsafe { ffi::tb_client_free(self.0) };
    }
}

impl Client {
    /// A client of the ledger that listens on a port ("3001"), on a Unix socket, whose path has a
    /// slash ("./ledger.sock"), or on several machines ("10.0.0.1:3001,10.0.0.2:3001"). It connects
    /// when it is first asked.
    pub fn connect(addresses: &str) -> Result<Client, Error> {
        Client::with_options(addresses, &Options::default())
    }

    pub fn with_options(addresses: &str, options: &Options) -> Result<Client, Error> {
        let addresses = CString::new(addresses).map_err(|_| Error::with_zero("address"))?;
        let (connect, mut raw) = (connecting(&options.connect)?, null_mut());
        let with = ffi::ClientOptions {
            connect: connect.raw,
            sessions: options.sessions,
        };
        call(|error| unsafe {
            ffi::tb_client_connect(addresses.as_ptr(), &with, &mut raw, error)
        })?;
        Ok(Client {
            inner: Arc::new(Inner(raw)),
            limit: options.limit,
        })
    }

    /// The ledger in a file, which is made if it is not there, once the file was read. tbd serves it
    /// as a child of this process. If the child is killed it is started again, and a call that
    /// waits gets its first reply; it ends with this process, also if that is killed.
    pub fn open(path: &str) -> Result<Client, Error> {
        Client::open_with(path, &OpenOptions::default())
    }

    pub fn open_with(path: &str, options: &OpenOptions) -> Result<Client, Error> {
        let path = CString::new(path).map_err(|_| Error::with_zero("path"))?;
        let program = options.program.as_deref().map(CString::new).transpose();
        let program = program.map_err(|_| Error::with_zero("program"))?;
        let mut raw = null_mut();
        let with = ffi::OpenOptions {
            program: program.as_ref().map_or(null(), |it| it.as_ptr()),
            clients_max: options.clients_max,
            profile: options.profile,
            existing: options.existing,
            drop_torn: options.drop_torn,
            lock_timeout: ffi::nanoseconds(options.lock_timeout),
            ahead_max: options.ahead_max.map_or(-1, ffi::nanoseconds),
            limit: i64::MAX,
            report: None,
            progress: options.progress.map(|_| ffi::progressed as _),
            context: options.progress.map_or(null_mut(), |it| it as *mut c_void),
        };
        call(|error| unsafe { ffi::tb_client_open(path.as_ptr(), &with, &mut raw, error) })?;
        Ok(Client {
            inner: Arc::new(Inner(raw)),
            limit: options.limit,
        })
    }

    fn begin(&self, asked: &Asked) -> Result<Call, Error> {
        let mut raw = null_mut();
        call(|error| unsafe {
            ffi::tb_client_begin(
                self.inner.0,
                asked.operation,
                asked.bytes.as_ptr().cast(),
                asked.count,
                &mut raw,
                error,
            )
        })?;
        Ok(Call {
            raw,
            is_taken: AtomicBool::new(false),
            _client: Arc::clone(&self.inner),
        })
    }

    /// Begins a call, which goes on while its caller does other work. So do the next three.
    pub fn begin_create_accounts(&self, accounts: &[Account]) -> Result<Call, Error> {
        self.begin(&Asked::accounts(accounts))
    }

    pub fn begin_create_transfers(&self, transfers: &[Transfer]) -> Result<Call, Error> {
        self.begin(&Asked::transfers(transfers))
    }

    pub fn begin_lookup_accounts(&self, ids: &[u128]) -> Result<Call, Error> {
        self.begin(&Asked::ids(Operation::LookupAccounts, ids))
    }

    pub fn begin_lookup_transfers(&self, ids: &[u128]) -> Result<Call, Error> {
        self.begin(&Asked::ids(Operation::LookupTransfers, ids))
    }

    /// Creates accounts, and returns those that were not created.
    pub fn create_accounts(&self, accounts: &[Account]) -> Result<AccountResults, Error> {
        match self.begin_create_accounts(accounts)?.wait(self.limit)? {
            Answer::AccountResults(results) => Ok(results),
            other => unreachable!("{other:?}"),
        }
    }

    /// Makes transfers, and returns those that were not made.
    pub fn create_transfers(&self, transfers: &[Transfer]) -> Result<TransferResults, Error> {
        match self.begin_create_transfers(transfers)?.wait(self.limit)? {
            Answer::TransferResults(results) => Ok(results),
            other => unreachable!("{other:?}"),
        }
    }

    /// The accounts that exist, in the order of the ids.
    pub fn lookup_accounts(&self, ids: &[u128]) -> Result<Vec<Account>, Error> {
        match self.begin_lookup_accounts(ids)?.wait(self.limit)? {
            Answer::Accounts(found) => Ok(found),
            other => unreachable!("{other:?}"),
        }
    }

    /// The transfers that exist, in the order of the ids.
    pub fn lookup_transfers(&self, ids: &[u128]) -> Result<Vec<Transfer>, Error> {
        match self.begin_lookup_transfers(ids)?.wait(self.limit)? {
            Answer::Transfers(found) => Ok(found),
            other => unreachable!("{other:?}"),
        }
    }

    /// Closes it: requests in flight are waited for, as long as one sending may take; calls of
    /// which nothing was sent are [`Error::Closed`].
    pub fn close(&self) {
        unsafe { ffi::tb_client_close(self.inner.0) };
    }
}

impl Drop for Client {
    fn drop(&mut self) {
        self.close();
    }
}

/// A call that goes on. Dropping it leaves it: a list that was not sent is not.
pub struct Call {
    raw: *mut ffi::Call,
    is_taken: AtomicBool,
    _client: Arc<Inner>,
}

unsafe impl Send for Call {}
unsafe impl Sync for Call {}

impl Call {
    /// Waits for the answer. At the end of the limit the caller leaves. One thread has the answer:
    /// to a second one it is [`Error::Closed`].
    pub fn wait(&self, limit: Duration) -> Result<Answer, Error> {
        if self.is_taken.swap(true, Ordering::Relaxed) {
            return Err(Error::Closed);
        }
        let mut answer = ffi::Answer::none();
        call(|error| unsafe {
            ffi::tb_call_wait(self.raw, ffi::nanoseconds(limit), &mut answer, error)
        })?;
        Ok(Answer::taken(answer))
    }

    /// The caller leaves: who waits gets [`Error::Cancelled`].
    pub fn leave(&self) {
        unsafe { ffi::tb_call_leave(self.raw) };
    }
}

impl Drop for Call {
    fn drop(&mut self) {
        unsafe { ffi::tb_call_free(self.raw) };
    }
}
