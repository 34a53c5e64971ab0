//! The frames of tb_embed.rs: frames MODE, with the modes and the lines of frames.c, which tests/embedding/test_embedded.py compares with these.
//! No library is needed: the calls are left out.
use std::io::{self, Read, Write};

#[allow(dead_code)]
#[path = "../../clients/embed/rust/tb_embed.rs"]
mod tb_embed;

use tb_embed::*;

const SESSION: u64 = 0x1122334455667788;

fn wide(low: u64, high: u64) -> u128 {
    u128::from(high) << 64 | u128::from(low)
}

/// An account whose fields are all different, from this number on.
fn account(n: u64) -> Account {
    Account {
        id: wide(n, 1),
        debits_pending: wide(n + 1, 2),
        debits_posted: wide(n + 2, 3),
        credits_pending: wide(n + 3, 4),
        credits_posted: wide(n + 4, 5),
        user_data_128: wide(n + 5, u64::MAX),
        user_data_64: n + 6,
        user_data_32: n as u32 + 7,
        reserved: n as u32 + 8,
        ledger: n as u32 + 9,
        code: n as u16 + 10,
        flags: AccountFlags::LINKED | AccountFlags::HISTORY | AccountFlags::CLOSED,
        timestamp: n + 11,
    }
}

fn transfer(n: u64) -> Transfer {
    Transfer {
        id: wide(n, 1),
        debit_account_id: wide(n + 1, 2),
        credit_account_id: wide(n + 2, 3),
        amount: AMOUNT_MAX,
        pending_id: wide(n + 4, 5),
        user_data_128: wide(n + 5, u64::MAX),
        user_data_64: n + 6,
        user_data_32: n as u32 + 7,
        timeout: n as u32 + 8,
        ledger: n as u32 + 9,
        code: n as u16 + 10,
        flags: TransferFlags::PENDING
            | TransferFlags::BALANCING_CREDIT
            | TransferFlags::CLOSING_CREDIT,
        timestamp: n + 11,
    }
}

fn hex(bytes: &[u8]) -> String {
    bytes.iter().map(|byte| format!("{byte:02x}")).collect()
}

fn write_all(client: u128, number: u32) {
    let ids = vec![wide(5, 6), 0, u128::MAX];
    let requests = [
        Request::register(client),
        Request::create_accounts(client, SESSION, number, vec![account(100), account(200)]),
        Request::create_transfers(client, SESSION, number, vec![transfer(300), transfer(400)]),
        Request::lookup_accounts(client, SESSION, number, ids.clone()),
        Request::lookup_transfers(client, SESSION, number, ids),
    ];
    for request in requests {
        println!("{}", hex(&request.to_bytes().unwrap()));
    }
}

/// The bodies of the four operations that have items, with this many of them.
fn bodies(count: usize) -> [Body; 4] {
    [
        Body::CreateAccounts(vec![Account::default(); count]),
        Body::CreateTransfers(vec![Transfer::default(); count]),
        Body::LookupAccounts(vec![0; count]),
        Body::LookupTransfers(vec![0; count]),
    ]
}

fn refused() {
    let request = |client, session, number, body| Request {
        client,
        session,
        number,
        body,
    };
    let fault =
        |client, session, number, body| request(client, session, number, body).to_bytes().err();
    for body in bodies(2) {
        assert_eq!(fault(0, 1, 1, body.clone()), Some(Fault::ClientZero));
        assert_eq!(fault(1 << 64, 1, 0, body.clone()), Some(Fault::RequestZero));
        assert_eq!(fault(1 << 64, 0, 1, body), None);
    }
    assert_eq!(fault(0, 0, 0, Body::Register), Some(Fault::ClientZero));
    assert_eq!(fault(1, 1, 0, Body::Register), Some(Fault::RegisterNumbers));
    assert_eq!(fault(1, 0, 1, Body::Register), Some(Fault::RegisterNumbers));
    for (full, more) in bodies(ITEMS_MAX).into_iter().zip(bodies(ITEMS_MAX + 1)) {
        let (longest, is_record) = (
            request(1, 1, u32::MAX, full).to_bytes().unwrap(),
            !matches!(more, Body::LookupAccounts(_) | Body::LookupTransfers(_)),
        );
        assert_eq!(longest.len() == REQUEST_MAX, is_record);
        assert_eq!(fault(1, 1, u32::MAX, more), Some(Fault::TooMany));
    }
    names();
    println!("ok");
}

/// Numbers without a name are kept, and shown as they are.
fn names() {
    for number in (0..=300).chain([u32::MAX]) {
        assert_eq!(Operation::from_number(number).number(), number);
        assert_eq!(Status::from_number(number).number(), number);
        assert_eq!(CreateAccountResult::from_number(number).number(), number);
        assert_eq!(CreateTransferResult::from_number(number).number(), number);
    }
    assert_eq!(
        CreateTransferResult::from_number(18).to_string(),
        "unknown 18"
    );
    assert_eq!(
        CreateTransferResult::from_number(54).to_string(),
        "exceeds_credits"
    );
    assert_eq!(Operation::Unknown(3).to_string(), "unknown 3");
    assert_eq!(
        (AccountFlags::LINKED | AccountFlags(0x8000)).to_string(),
        "linked | 0x8000"
    );
    assert!((TransferFlags::PENDING | TransferFlags::LINKED).contains(TransferFlags::PENDING));
    assert!(!TransferFlags::PENDING.contains(TransferFlags::PENDING | TransferFlags::LINKED));
    assert_eq!(
        Error::Request(Fault::ClientZero).to_string(),
        "the request is wrong: ClientZero"
    );
    assert_eq!(
        Error::Refused(Status::NoSession).to_string(),
        "refused: NoSession"
    );
}

/// Prints each item. Exactly one of the four kinds is there, and no item of a refusal and of a
/// register.
fn print_items(reply: &Reply) {
    let results = |index: u32, code: u32| println!("  result {index} {code}");
    let kinds = [
        reply.account_results().map(|all| {
            all.iter()
                .for_each(|it| results(it.index, it.result.number()))
        }),
        reply.transfer_results().map(|all| {
            all.iter()
                .for_each(|it| results(it.index, it.result.number()))
        }),
        reply.accounts().map(|all| {
            all.iter()
                .for_each(|it| println!("  account {}", hex(&it.to_bytes())))
        }),
        reply.transfers().map(|all| {
            all.iter()
                .for_each(|it| println!("  transfer {}", hex(&it.to_bytes())))
        }),
    ];
    let wrong = match reply.status {
        Status::Reply => Error::AnotherKind(reply.operation),
        status => Error::Refused(status),
    };
    assert!(kinds
        .iter()
        .all(|kind| *kind == Ok(()) || *kind == Err(wrong)));
    assert_eq!(
        kinds.iter().filter(|kind| kind.is_ok()).count(),
        usize::from(reply.body != ReplyBody::Empty)
    );
}

/// The bytes that were given on standard input, each after its length (u32).
fn given() -> io::Result<Vec<Vec<u8>>> {
    let (mut all, mut each) = (Vec::new(), Vec::new());
    io::stdin().read_to_end(&mut all)?;
    let mut rest = &all[..];
    while let Some((length, more)) = rest.split_first_chunk() {
        let (bytes, more) = more.split_at(u32::from_le_bytes(*length) as usize);
        each.push(bytes.to_vec());
        rest = more;
    }
    Ok(each)
}

fn print_request(request: &Request) {
    let (low, high) = (request.client as u64, (request.client >> 64) as u64);
    let (operation, session, number) = (request.operation(), request.session, request.number);
    println!("{operation} {high} {low} {session} {number}");
    match &request.body {
        Body::Register => {}
        Body::CreateAccounts(accounts) => accounts
            .iter()
            .for_each(|it| println!("  account {}", hex(&it.to_bytes()))),
        Body::CreateTransfers(transfers) => transfers
            .iter()
            .for_each(|it| println!("  transfer {}", hex(&it.to_bytes()))),
        Body::LookupAccounts(ids) | Body::LookupTransfers(ids) => ids
            .iter()
            .for_each(|id| println!("  id {}", hex(&id.to_le_bytes()))),
    }
}

/// What is read is written again, and has the bytes that were read.
fn read_requests() -> io::Result<()> {
    for bytes in given()? {
        match Request::from_bytes(&bytes) {
            Ok((request, length)) => {
                assert_eq!(request.to_bytes().as_deref(), Ok(&bytes[..length]));
                print_request(&request);
            }
            Err(fault) => println!("{} {fault}", fault as u32),
        }
    }
    io::stdout().flush()
}

fn read_replies() -> io::Result<()> {
    for bytes in given()? {
        match Reply::from_bytes(&bytes) {
            Ok((reply, length)) => {
                assert!(HEADER_SIZE <= length && length <= bytes.len());
                println!("{} {} {}", reply.operation, reply.status, reply.commit);
                print_items(&reply);
            }
            Err(fault) => println!("{} {fault}", fault as u32),
        }
    }
    io::stdout().flush()
}

fn main() -> io::Result<()> {
    match std::env::args().nth(1).as_deref() {
        Some("write") => write_all(wide(7, 9), 0xfffffffe),
        Some("refused") => refused(),
        Some("requests") => read_requests()?,
        Some("read") => read_replies()?,
        _ => return Err(io::Error::other("frames write|refused|requests|read")),
    }
    Ok(())
}
