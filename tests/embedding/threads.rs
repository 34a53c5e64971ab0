//! Servers in threads: threads SCRIPT REPLIES. Four threads serve the script by a server each, and every reply is the file's; then four share one
//! server under a mutex, each sends every request twice, and the money moves once.
use std::sync::Mutex;
use std::{env, fs, thread};

use tb_embed::{Account, Reply, ReplyBody, Request, Server, Transfer, REPLY_MAX};

fn length_of(frame: &[u8]) -> usize {
    48 + u32::from_le_bytes(frame[32..36].try_into().unwrap()) as usize
}

fn serve_script(server: &mut Server, script: &[u8], replies: &[u8]) {
    let (mut room, mut script, mut replies) = (vec![0; REPLY_MAX], script, replies);
    while !script.is_empty() {
        let moment = u64::from_le_bytes(script[..8].try_into().unwrap());
        let end = 8 + length_of(&script[8..]);
        let reply = server.serve(moment, &script[8..end], &mut room).unwrap();
        assert_eq!(reply, &replies[..reply.len()]);
        (script, replies) = (&script[end..], &replies[reply.len()..]);
    }
    assert!(replies.is_empty());
}

fn account(id: u128) -> Account {
    Account {
        id,
        ledger: 700,
        code: 10,
        ..Account::default()
    }
}

/// A transfer of 1 from account 1 to account 2.
fn transfer(id: u128) -> Transfer {
    let (debit_account_id, credit_account_id) = (1, 2);
    Transfer {
        id,
        debit_account_id,
        credit_account_id,
        amount: 1,
        ledger: 700,
        code: 10,
        ..Transfer::default()
    }
}

/// Sends a request twice. Both replies are the same, and say that nothing failed.
fn twice(server: &Mutex<Server>, request: &Request) -> Reply {
    let ask = || server.lock().unwrap().ask(10, request).unwrap();
    let (first, again) = (ask(), ask());
    assert_eq!(first, again);
    match &first.body {
        ReplyBody::AccountResults(failed) => assert!(failed.is_empty()),
        ReplyBody::TransferResults(failed) => assert!(failed.is_empty()),
        body => assert_eq!(body, &ReplyBody::Empty),
    }
    first
}

fn share(server: &Mutex<Server>, client: u128) {
    let session = twice(server, &Request::register(client)).session;
    for number in 1..=200 {
        let moved = transfer(client * 1000 + u128::from(number));
        let request = Request::create_transfers(client, session, number, vec![moved]);
        twice(server, &request);
    }
}

fn main() {
    let read = |nth| fs::read(env::args().nth(nth).unwrap()).unwrap();
    let (script, replies) = (read(1), read(2));
    thread::scope(|scope| {
        for _ in 0..4 {
            let mut server = Server::open(1, 64).unwrap();
            let (script, replies) = (&script, &replies);
            scope.spawn(move || serve_script(&mut server, script, replies));
        }
    });
    let server = Mutex::new(Server::open(1, 64).unwrap());
    let session = twice(&server, &Request::register(100)).session;
    let accounts = vec![account(1), account(2)];
    twice(
        &server,
        &Request::create_accounts(100, session, 1, accounts),
    );
    thread::scope(|scope| {
        for client in 1..=4 {
            let server = &server;
            scope.spawn(move || share(server, client));
        }
    });
    let account = server.lock().unwrap().account(2).unwrap();
    println!(
        "credits_posted of account 2: {}",
        Account::from_bytes(&account).credits_posted
    );
}
