//! What the wrapper returns if a request is wrong, refused, or not served; and the longest reply.
use tb_embed::*;

fn account(id: u128) -> Account {
    Account {
        id,
        ledger: 700,
        code: 10,
        ..Account::default()
    }
}

fn lookup(client: u128, session: u64, number: u32, ids: &[u128]) -> Request {
    Request::lookup_accounts(client, session, number, ids.to_vec())
}

/// A server with a client, 7, and the accounts 1 and 2: its session, after request 1.
fn begun(clients_max: u32) -> (Server, u64) {
    let mut server = Server::open(1, clients_max).unwrap();
    let session = server.ask(10, &Request::register(7)).unwrap().session;
    let request = Request::create_accounts(7, session, 1, vec![account(1), account(2), account(0)]);
    let reply = server.ask(10, &request).unwrap();
    let result = CreateAccountResult::IdMustNotBeZero;
    assert_eq!(
        reply.account_results(),
        Ok(&[EventResult { index: 2, result }][..])
    );
    assert_eq!(
        reply.transfers(),
        Err(Error::AnotherKind(Operation::CreateAccounts))
    );
    (server, session)
}

fn refusals() {
    let (mut server, session) = begun(1);
    let mut refused = |request: Request| server.ask(10, &request).err();
    let status = |status| Some(Error::Refused(status));
    assert_eq!(
        refused(lookup(0, session, 2, &[])),
        Some(Error::Request(Fault::ClientZero))
    );
    assert_eq!(
        refused(lookup(7, session, 0, &[])),
        Some(Error::Request(Fault::RequestZero))
    );
    assert_eq!(
        refused(lookup(7, session, 2, &[1; 8191])),
        Some(Error::Request(Fault::TooMany))
    );
    assert_eq!(
        refused(lookup(8, session, 2, &[])),
        status(Status::NoSession)
    );
    assert_eq!(
        refused(lookup(7, session - 1, 2, &[])),
        status(Status::SessionTooLow)
    );
    assert_eq!(
        refused(lookup(7, session + 1, 2, &[])),
        status(Status::NewerSession)
    );
    assert_eq!(
        refused(lookup(7, session, 1, &[])),
        status(Status::Collision)
    );
    assert_eq!(
        refused(lookup(7, session, 3, &[])),
        status(Status::NewerRequest)
    );
    assert_eq!(refused(lookup(7, session, 2, &[])), None);
    assert_eq!(refused(lookup(7, session, 1, &[])), status(Status::Older));
    assert_eq!(refused(Request::register(9)), None); // the only place: client 7 is evicted
    assert_eq!(
        refused(lookup(7, session, 3, &[])),
        status(Status::NoSession)
    );
}

fn calls() {
    for (profile, clients_max) in [(0, 2), (3, 2), (1, 0), (1, CLIENTS_MAX + 1)] {
        assert_eq!(
            Server::open(profile, clients_max).err(),
            Some(Refusal::Usage)
        );
    }
    let (mut server, session) = begun(CLIENTS_MAX);
    let request = lookup(7, session, 2, &[2, 9, 1]);
    let (frame, mut room) = (
        request.to_bytes().unwrap(),
        [0; HEADER_SIZE + 2 * RECORD_SIZE],
    );
    let needed = room.len();
    assert_eq!(
        server.serve(10, &frame, &mut room[1..]),
        Err(Refusal::TooSmall(needed))
    );
    let (reply, length) = Reply::from_bytes(server.serve(10, &frame, &mut room).unwrap()).unwrap();
    assert_eq!(length, needed);
    assert_eq!(server.ask(10, &request).unwrap(), reply);
    let ids: Vec<u128> = reply.accounts().unwrap().iter().map(|it| it.id).collect();
    assert_eq!(ids, [2, 1]);
    assert_eq!(
        server.account(1).map(|it| Account::from_bytes(&it).code),
        Some(10)
    );
    assert_eq!((server.account(9), server.transfer(1)), (None, None));
    let longest = server
        .ask(10, &lookup(7, session, 3, &[1; ITEMS_MAX]))
        .unwrap();
    assert_eq!(longest.accounts().unwrap().len(), ITEMS_MAX);
    assert_eq!(
        server.serve(10, &frame[1..], &mut room),
        Err(Refusal::Malformed)
    );
    let late = server.ask(TIME_MAX + 1, &lookup(7, session, 4, &[]));
    assert_eq!(late.err(), Some(Error::Call(Refusal::TimeExhausted)));
}

fn main() {
    refusals();
    calls();
    println!("ok");
}
