//! A session that outlives the program.
use std::ffi::{c_int, CString};
use std::ptr::{null, null_mut};
use std::sync::Arc;
use std::time::Duration;

use crate::error::Error;
use crate::ffi;
use crate::tb_embed::{
    Account, CreateAccountResult, CreateTransferResult, EventResult, Operation, Transfer, ID_SIZE,
    RECORD_SIZE, RESULT_SIZE,
};
use crate::{AccountResults, Connect, TransferResults};

/// What a reply says.
#[derive(Clone, Debug, PartialEq, Eq)]
pub enum Answer {
    /// Of a register: the new session.
    Registered(u64),
    AccountResults(AccountResults),
    TransferResults(TransferResults),
    Accounts(Vec<Account>),
    Transfers(Vec<Transfer>),
}

/// The items of an answer, each of so many bytes.
fn items<T, const SIZE: usize>(answer: &ffi::Answer, read: impl Fn(&[u8; SIZE]) -> T) -> Vec<T> {
    if answer.count == 0 {
        return Vec::new();
    }
    let rows = answer.items.cast::<[u8; SIZE]>().cast_const();
    let rows = unsafe { std::slice::from_raw_parts(rows, answer.count) };
    rows.iter().map(read).collect()
}

fn result<R>(bytes: &[u8; RESULT_SIZE], code: impl Fn(u32) -> R) -> EventResult<R> {
    let [a, b, c, d, e, f, g, h] = *bytes;
    EventResult {
        index: u32::from_le_bytes([a, b, c, d]),
        result: code(u32::from_le_bytes([e, f, g, h])),
    }
}

impl Answer {
    /// Takes an answer of the library, and frees it.
    pub(crate) fn taken(mut given: ffi::Answer) -> Answer {
        let made = match Operation::from_number(given.operation.into()) {
            Operation::CreateAccounts => Answer::AccountResults(items(&given, |it| {
                result(it, CreateAccountResult::from_number)
            })),
            Operation::CreateTransfers => Answer::TransferResults(items(&given, |it| {
                result(it, CreateTransferResult::from_number)
            })),
            Operation::LookupAccounts => Answer::Accounts(items(&given, Account::from_bytes)),
            Operation::LookupTransfers => Answer::Transfers(items(&given, Transfer::from_bytes)),
            _ => Answer::Registered(given.session),
        };
        unsafe { ffi::tb_answer_free(&mut given) };
        made
    }
}

/// What the library returned: an error if its code is not 0.
pub(crate) fn checked(code: c_int, error: &ffi::ClientError) -> Result<(), Error> {
    if code == 0 {
        Ok(())
    } else {
        Err(Error::of(error))
    }
}

/// A call that fills an error.
pub(crate) fn call(made: impl FnOnce(*mut ffi::ClientError) -> c_int) -> Result<(), Error> {
    let mut error = ffi::ClientError::none();
    let code = made(&mut error);
    checked(code, &error)
}

/// What a request asks for, as bytes: its operation, its items and their number.
pub(crate) struct Asked {
    pub operation: c_int,
    pub bytes: Vec<u8>,
    pub count: usize,
}

impl Asked {
    fn new<T, const SIZE: usize>(
        operation: Operation,
        items: &[T],
        write: impl Fn(&T) -> [u8; SIZE],
    ) -> Asked {
        let mut bytes = Vec::with_capacity(items.len() * SIZE);
        for it in items {
            bytes.extend_from_slice(&write(it));
        }
        Asked {
            operation: operation.number() as c_int,
            bytes,
            count: items.len(),
        }
    }

    pub fn register() -> Asked {
        Asked::new(Operation::Register, &[], |_: &()| [0; 1])
    }

    pub fn accounts(items: &[Account]) -> Asked {
        Asked::new::<_, RECORD_SIZE>(Operation::CreateAccounts, items, Account::to_bytes)
    }

    pub fn transfers(items: &[Transfer]) -> Asked {
        Asked::new::<_, RECORD_SIZE>(Operation::CreateTransfers, items, Transfer::to_bytes)
    }

    pub fn ids(operation: Operation, ids: &[u128]) -> Asked {
        Asked::new::<_, ID_SIZE>(operation, ids, |it| it.to_le_bytes())
    }
}

/// The options of a connection as C has them, with what they point to.
pub(crate) struct Connecting {
    pub raw: ffi::ConnectOptions,
    _texts: Vec<CString>,
}

pub(crate) fn connecting(options: &Connect) -> Result<Connecting, Error> {
    let mut texts = Vec::new();
    let mut kept = |field: &str, text: Option<&String>| match text {
        None => Ok(null()),
        Some(text) => {
            let text = CString::new(text.as_str()).map_err(|_| Error::with_zero(field))?;
            let at = text.as_ptr();
            texts.push(text);
            Ok(at)
        }
    };
    let tls = options.tls.as_ref();
    let raw = ffi::ConnectOptions {
        timeout: ffi::nanoseconds(options.timeout),
        ca: kept("ca", tls.map(|it| &it.ca))?,
        certificate: kept("certificate", tls.and_then(|it| it.certificate.as_ref()))?,
        key: kept("key", tls.and_then(|it| it.key.as_ref()))?,
    };
    Ok(Connecting { raw, _texts: texts })
}

/// A connection to a server, which sessions share.
pub struct Transport(*mut ffi::Transport);

unsafe impl Send for Transport {}
unsafe impl Sync for Transport {}

impl Transport {
    /// Connects when a request is to be sent. An address is a port, HOST, HOST:PORT, or the path of
    /// a Unix socket, which has a slash; several, with commas between, serve one ledger.
    pub fn new(addresses: &str, options: &Connect) -> Result<Arc<Transport>, Error> {
        let addresses = CString::new(addresses).map_err(|_| Error::with_zero("address"))?;
        let (options, mut raw) = (connecting(options)?, null_mut());
        call(|error| unsafe {
            ffi::tb_transport_new(addresses.as_ptr(), &options.raw, &mut raw, error)
        })?;
        Ok(Arc::new(Transport(raw)))
    }

    /// Closes it: a call that goes on ends, each later one is [`Error::Closed`].
    pub fn close(&self) {
        unsafe { ffi::tb_transport_close(self.0) };
    }
}

impl Drop for Transport {
    fn drop(&mut self) {
        unsafe { ffi::tb_transport_free(self.0) };
    }
}

/// Options of a session.
#[derive(Clone, Debug)]
pub struct SessionOptions {
    /// The client's id, which no other client has; without it a new one.
    pub client: Option<u128>,
    /// Sendings in one call, if no reply comes.
    pub attempts: i32,
    /// The pause before the second one, if the server said to come later.
    pub pause: Duration,
}

impl Default for SessionOptions {
    fn default() -> SessionOptions {
        SessionOptions {
            client: None,
            attempts: 5,
            pause: Duration::from_millis(50),
        }
    }
}

/// What outlives a client, in its file.
#[derive(Clone, Debug, PartialEq, Eq)]
pub struct Saved {
    pub client: u128,
    pub session: u64,
    /// Of the last request that has its reply.
    pub number: u32,
    /// The frame of the request in doubt, or nothing.
    pub pending: Vec<u8>,
}

/// A session: one request in flight, whose frame is kept until the reply is there. Threads may share
/// it: their calls go one after another.
pub struct Session {
    raw: *mut ffi::Session,
    transport: Arc<Transport>,
}

unsafe impl Send for Session {}
unsafe impl Sync for Session {}

impl Session {
    fn made(
        transport: &Arc<Transport>,
        options: &SessionOptions,
        make: impl FnOnce(
            *const ffi::SessionOptions,
            *mut *mut ffi::Session,
            *mut ffi::ClientError,
        ) -> c_int,
    ) -> Result<Session, Error> {
        let (client, mut raw) = (options.client.map(ffi::U128::from), null_mut());
        let options = ffi::SessionOptions {
            client: client.as_ref().map_or(null(), |it| it),
            attempts: options.attempts,
            pause: ffi::nanoseconds(options.pause),
        };
        call(|error| make(&options, &mut raw, error))?;
        Ok(Session {
            raw,
            transport: Arc::clone(transport),
        })
    }

    /// A session that is not registered. It sends nothing.
    pub fn new(transport: &Arc<Transport>, options: &SessionOptions) -> Result<Session, Error> {
        Session::made(transport, options, |options, session, error| unsafe {
            ffi::tb_session_new(transport.0, options, session, error)
        })
    }

    /// Registers a client.
    pub fn register(
        transport: &Arc<Transport>,
        options: &SessionOptions,
        limit: Duration,
    ) -> Result<Session, Error> {
        let session = Session::new(transport, options)?;
        session.ask(&Asked::register(), limit)?;
        Ok(session)
    }

    /// Goes on with what was saved. A request in doubt is first sent again: [`Session::retry`].
    pub fn resume(
        transport: &Arc<Transport>,
        saved: &Saved,
        options: &SessionOptions,
    ) -> Result<Session, Error> {
        let raw = ffi::Saved {
            client: saved.client.into(),
            session: saved.session,
            number: saved.number,
            pending: saved.pending.as_ptr(),
            length: saved.pending.len(),
        };
        Session::made(transport, options, |options, session, error| unsafe {
            ffi::tb_session_resume(transport.0, &raw, options, session, error)
        })
    }

    /// Goes on with what [`Session::save`] left in a file.
    pub fn load(
        transport: &Arc<Transport>,
        path: &str,
        options: &SessionOptions,
    ) -> Result<Session, Error> {
        let path = CString::new(path).map_err(|_| Error::with_zero("path"))?;
        Session::made(transport, options, |options, session, error| unsafe {
            ffi::tb_session_load(transport.0, path.as_ptr(), options, session, error)
        })
    }

    /// The client's id.
    pub fn client(&self) -> u128 {
        unsafe { ffi::tb_session_client(self.raw) }.into()
    }

    pub fn transport(&self) -> &Transport {
        &self.transport
    }

    fn prepare(&self, asked: &Asked) -> Result<(), Error> {
        call(|error| unsafe {
            ffi::tb_session_prepare(
                self.raw,
                asked.operation,
                asked.bytes.as_ptr().cast(),
                asked.count,
                error,
            )
        })
    }

    fn ask(&self, asked: &Asked, limit: Duration) -> Result<Answer, Error> {
        let mut answer = ffi::Answer::none();
        call(|error| unsafe {
            ffi::tb_session_ask(
                self.raw,
                asked.operation,
                asked.bytes.as_ptr().cast(),
                asked.count,
                ffi::nanoseconds(limit),
                &mut answer,
                error,
            )
        })?;
        Ok(Answer::taken(answer))
    }

    /// Makes the register, which is in doubt from then on, and sends nothing: save, then retry. So
    /// do the next four.
    pub fn prepare_register(&self) -> Result<(), Error> {
        self.prepare(&Asked::register())
    }

    pub fn prepare_accounts(&self, accounts: &[Account]) -> Result<(), Error> {
        self.prepare(&Asked::accounts(accounts))
    }

    pub fn prepare_transfers(&self, transfers: &[Transfer]) -> Result<(), Error> {
        self.prepare(&Asked::transfers(transfers))
    }

    pub fn prepare_account_lookup(&self, ids: &[u128]) -> Result<(), Error> {
        self.prepare(&Asked::ids(Operation::LookupAccounts, ids))
    }

    pub fn prepare_transfer_lookup(&self, ids: &[u128]) -> Result<(), Error> {
        self.prepare(&Asked::ids(Operation::LookupTransfers, ids))
    }

    /// Sends the request in doubt, the same bytes each time, until its reply is there, as often as
    /// the session's attempts. Whatever the error, it stays in doubt.
    pub fn retry(&self, limit: Duration) -> Result<Answer, Error> {
        let mut answer = ffi::Answer::none();
        call(|error| unsafe {
            ffi::tb_session_retry(self.raw, ffi::nanoseconds(limit), &mut answer, error)
        })?;
        Ok(Answer::taken(answer))
    }

    /// Creates accounts, and returns those that were not created. If nothing was sent, it is as if
    /// it had not been called; so are the next three.
    pub fn create_accounts(
        &self,
        accounts: &[Account],
        limit: Duration,
    ) -> Result<AccountResults, Error> {
        match self.ask(&Asked::accounts(accounts), limit)? {
            Answer::AccountResults(results) => Ok(results),
            other => unreachable!("{other:?}"),
        }
    }

    /// Makes transfers, and returns those that were not made.
    pub fn create_transfers(
        &self,
        transfers: &[Transfer],
        limit: Duration,
    ) -> Result<TransferResults, Error> {
        match self.ask(&Asked::transfers(transfers), limit)? {
            Answer::TransferResults(results) => Ok(results),
            other => unreachable!("{other:?}"),
        }
    }

    /// The accounts that exist, in the order of the ids.
    pub fn lookup_accounts(&self, ids: &[u128], limit: Duration) -> Result<Vec<Account>, Error> {
        match self.ask(&Asked::ids(Operation::LookupAccounts, ids), limit)? {
            Answer::Accounts(found) => Ok(found),
            other => unreachable!("{other:?}"),
        }
    }

    /// The transfers that exist, in the order of the ids.
    pub fn lookup_transfers(&self, ids: &[u128], limit: Duration) -> Result<Vec<Transfer>, Error> {
        match self.ask(&Asked::ids(Operation::LookupTransfers, ids), limit)? {
            Answer::Transfers(found) => Ok(found),
            other => unreachable!("{other:?}"),
        }
    }

    /// The session as it is.
    pub fn saved(&self) -> Result<Saved, Error> {
        let mut raw = ffi::Saved {
            client: 0.into(),
            session: 0,
            number: 0,
            pending: null(),
            length: 0,
        };
        call(|error| unsafe { ffi::tb_session_saved(self.raw, &mut raw, error) })?;
        let pending = if raw.length == 0 {
            Vec::new()
        } else {
            unsafe { std::slice::from_raw_parts(raw.pending, raw.length) }.to_vec()
        };
        let saved = Saved {
            client: raw.client.into(),
            session: raw.session,
            number: raw.number,
            pending,
        };
        unsafe { ffi::tb_saved_free(&mut raw) };
        Ok(saved)
    }

    /// Puts the session into a file, whole and durably.
    pub fn save(&self, path: &str) -> Result<(), Error> {
        let path = CString::new(path).map_err(|_| Error::with_zero("path"))?;
        call(|error| unsafe { ffi::tb_session_save(self.raw, path.as_ptr(), error) })
    }
}

impl Drop for Session {
    fn drop(&mut self) {
        unsafe { ffi::tb_session_free(self.raw) };
    }
}
