// The session of a client over the server in the same program: a register, a lookup whose reply is lost, and each fault
// that the wrapper names. Prints nothing; a panic says what went wrong.
use tb_embed::{Caller, CallerFault, Heard, Numbers, Request, Server};

const MOMENT: u64 = 1_000;

fn returns(server: &mut Server, caller: &mut Caller, request: &[u8]) {
    let frame = caller.call(request).unwrap().to_vec();
    assert_eq!(caller.again(), Some(frame.as_slice()));
    assert_eq!(caller.call(request), Err(CallerFault::Unanswered));
    let mut room = [0; 4096];
    server.serve(MOMENT, &frame, &mut room).unwrap(); // its reply is lost
    let stored = (caller.numbers(), caller.frame().to_vec());
    *caller = Caller::from_stored(stored.0, stored.1).unwrap();
    let reply = server
        .serve(MOMENT, caller.again().unwrap(), &mut room)
        .unwrap();
    assert_eq!(caller.received(&reply[..47]), Err(CallerFault::Malformed));
    assert_eq!(caller.received(reply), Ok((Heard::Returned, reply.len())));
    assert_eq!(caller.received(reply), Ok((Heard::Other, reply.len())));
    assert!(caller.again().is_none() && caller.frame().is_empty());
}

fn ends(server: &mut Server, caller: &mut Caller, request: &[u8]) {
    let mut room = [0; 4096];
    for id in [8, 9] {
        let register = Request::register(id).to_bytes().unwrap();
        server.serve(MOMENT, &register, &mut room).unwrap(); // of two sessions the older one leaves
    }
    let frame = caller.call(request).unwrap().to_vec();
    let reply = server.serve(MOMENT, &frame, &mut room).unwrap();
    assert_eq!(caller.received(reply), Ok((Heard::Ended, 48)));
    assert_eq!(caller.call(request), Err(CallerFault::Ended));
    assert_eq!(caller.frame(), frame);
    let other = Numbers {
        session: 99,
        ..caller.numbers()
    };
    assert_eq!(
        Caller::from_stored(other, frame).err(),
        Some(CallerFault::OtherSession)
    );
}

fn main() {
    let mut server = Server::open(1, 2).unwrap();
    let mut caller = Caller::new(1 << 64 | 7);
    let lookup = Request::lookup_accounts(1, 1, 1, vec![5])
        .to_bytes()
        .unwrap();
    let register = Request::register(1).to_bytes().unwrap();
    assert_eq!(caller.call(&lookup), Err(CallerFault::NotRegistered));
    returns(&mut server, &mut caller, &register);
    assert_eq!(caller.call(&register), Err(CallerFault::Registered));
    returns(&mut server, &mut caller, &lookup);
    assert_eq!((caller.numbers().session, caller.numbers().last), (1, 1));
    ends(&mut server, &mut caller, &lookup);
}
