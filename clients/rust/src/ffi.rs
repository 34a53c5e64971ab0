//! What `tb_client.h` declares. Nothing compares these declarations with it: the conformance kit
//! runs over them.
use std::ffi::{c_char, c_int, c_uint, c_void};
use std::time::Duration;

#[repr(C)]
#[derive(Clone, Copy, Debug, Default)]
pub struct U128 {
    low: u64,
    high: u64,
}

impl From<u128> for U128 {
    fn from(number: u128) -> U128 {
        U128 {
            low: number as u64,
            high: (number >> 64) as u64,
        }
    }
}

impl From<U128> for u128 {
    fn from(halves: U128) -> u128 {
        u128::from(halves.high) << 64 | u128::from(halves.low)
    }
}

#[repr(C)]
#[derive(Debug, Default)]
pub struct Ids {
    last: U128,
}

#[repr(C)]
pub struct ClientError {
    pub code: c_int,
    pub sent: bool,
    pub is_final: bool,
    pub status: u8,
    pub system: c_int,
    pub owner: i64,
    pub field: [c_char; 32],
    pub told: [c_char; 32],
    pub text: [c_char; 232],
}

impl ClientError {
    pub fn none() -> ClientError {
        ClientError {
            code: 0,
            sent: false,
            is_final: false,
            status: 0,
            system: 0,
            owner: 0,
            field: [0; 32],
            told: [0; 32],
            text: [0; 232],
        }
    }
}

#[repr(C)]
pub struct ConnectOptions {
    pub timeout: i64,
    pub ca: *const c_char,
    pub certificate: *const c_char,
    pub key: *const c_char,
}

#[repr(C)]
pub struct ClientOptions {
    pub connect: ConnectOptions,
    pub sessions: c_int,
}

#[repr(C)]
pub struct OpenOptions {
    pub program: *const c_char,
    pub clients_max: c_int,
    pub profile: c_int,
    pub existing: bool,
    pub drop_torn: bool,
    pub lock_timeout: i64,
    pub ahead_max: i64,
    pub limit: i64,
    pub report: Option<unsafe extern "C" fn(*mut c_void, *const c_char)>,
    pub progress: Option<unsafe extern "C" fn(*mut c_void, c_uint, c_uint)>,
    pub context: *mut c_void,
}

#[repr(C)]
pub struct SessionOptions {
    pub client: *const U128,
    pub attempts: c_int,
    pub pause: i64,
}

#[repr(C)]
pub struct Answer {
    pub operation: u8,
    pub session: u64,
    pub count: usize,
    pub items: *mut c_void,
}

impl Answer {
    pub fn none() -> Answer {
        Answer {
            operation: 0,
            session: 0,
            count: 0,
            items: std::ptr::null_mut(),
        }
    }
}

#[repr(C)]
pub struct Saved {
    pub client: U128,
    pub session: u64,
    pub number: u32,
    pub pending: *const u8,
    pub length: usize,
}

/// Objects of the library.
macro_rules! opaque {
    ($($name:ident)*) => {$(
        #[repr(C)]
        pub struct $name {
            private: [u8; 0],
        }
    )*};
}

opaque! { Client Call Transport Session }

pub type Draw = unsafe extern "C" fn(*mut c_void, *mut u8);

/// A closure as the library calls it: a function, and its context.
pub fn drawing<F: FnMut(&mut [u8; 10])>(random: &mut F) -> (Draw, *mut c_void) {
    unsafe extern "C" fn draw<F: FnMut(&mut [u8; 10])>(context: *mut c_void, bytes: *mut u8) {
        let random = unsafe { &mut *context.cast::<F>() };
        random(unsafe { &mut *bytes.cast::<[u8; 10]>() });
    }
    (draw::<F>, (random as *mut F).cast())
}

/// Calls the function that is the context.
pub unsafe extern "C" fn progressed(context: *mut c_void, done: c_uint, size: c_uint) {
    let progress: fn(u32, u32) = unsafe { std::mem::transmute(context) };
    progress(done, size);
}

/// A time as the library counts it: what is too long never ends.
pub fn nanoseconds(time: Duration) -> i64 {
    i64::try_from(time.as_nanos()).unwrap_or(i64::MAX)
}

unsafe extern "C" {
    pub fn tb_id() -> U128;
    pub fn tb_ids_next(
        ids: *mut Ids,
        milliseconds: u64,
        random: Draw,
        context: *mut c_void,
    ) -> U128;
    pub fn tb_answer_free(answer: *mut Answer);

    pub fn tb_client_connect(
        addresses: *const c_char,
        options: *const ClientOptions,
        client: *mut *mut Client,
        error: *mut ClientError,
    ) -> c_int;
    pub fn tb_client_open(
        path: *const c_char,
        options: *const OpenOptions,
        client: *mut *mut Client,
        error: *mut ClientError,
    ) -> c_int;
    pub fn tb_client_begin(
        client: *mut Client,
        operation: c_int,
        items: *const c_void,
        count: usize,
        call: *mut *mut Call,
        error: *mut ClientError,
    ) -> c_int;
    pub fn tb_client_close(client: *mut Client);
    pub fn tb_client_free(client: *mut Client);
    pub fn tb_call_wait(
        call: *mut Call,
        limit: i64,
        answer: *mut Answer,
        error: *mut ClientError,
    ) -> c_int;
    pub fn tb_call_leave(call: *mut Call);
    pub fn tb_call_free(call: *mut Call);

    pub fn tb_transport_new(
        addresses: *const c_char,
        options: *const ConnectOptions,
        transport: *mut *mut Transport,
        error: *mut ClientError,
    ) -> c_int;
    pub fn tb_transport_close(transport: *mut Transport);
    pub fn tb_transport_free(transport: *mut Transport);

    pub fn tb_session_new(
        transport: *mut Transport,
        options: *const SessionOptions,
        session: *mut *mut Session,
        error: *mut ClientError,
    ) -> c_int;
    pub fn tb_session_resume(
        transport: *mut Transport,
        saved: *const Saved,
        options: *const SessionOptions,
        session: *mut *mut Session,
        error: *mut ClientError,
    ) -> c_int;
    pub fn tb_session_load(
        transport: *mut Transport,
        path: *const c_char,
        options: *const SessionOptions,
        session: *mut *mut Session,
        error: *mut ClientError,
    ) -> c_int;
    pub fn tb_session_free(session: *mut Session);
    pub fn tb_session_client(session: *const Session) -> U128;
    pub fn tb_session_prepare(
        session: *mut Session,
        operation: c_int,
        items: *const c_void,
        count: usize,
        error: *mut ClientError,
    ) -> c_int;
    pub fn tb_session_retry(
        session: *mut Session,
        limit: i64,
        answer: *mut Answer,
        error: *mut ClientError,
    ) -> c_int;
    pub fn tb_session_ask(
        session: *mut Session,
        operation: c_int,
        items: *const c_void,
        count: usize,
        limit: i64,
        answer: *mut Answer,
        error: *mut ClientError,
    ) -> c_int;
    pub fn tb_session_saved(
        session: *mut Session,
        saved: *mut Saved,
        error: *mut ClientError,
    ) -> c_int;
    pub fn tb_saved_free(saved: *mut Saved);
    pub fn tb_session_save(
        session: *mut Session,
        path: *const c_char,
        error: *mut ClientError,
    ) -> c_int;
}
