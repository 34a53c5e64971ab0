//! The first requests of a client: it registers, creates two accounts, and moves 100 from one to the other. It never sees that
//! reply, and sends the same request again: the money moves once.
use std::error::Error;

use tb_embed::{Account, AccountFlags, Reply, Request, Server, Transfer};

const CLIENT: u128 = 7;
const CASH: u128 = 1;
const SALES: u128 = 2;
/// In nanoseconds: a true program asks its clock.
const MOMENT: u64 = 10;

fn account(id: u128, flags: AccountFlags) -> Account {
    Account {
        id,
        ledger: 700,
        code: 10,
        flags,
        ..Account::default()
    }
}

fn transfer(id: u128, from: u128, to: u128, amount: u128) -> Transfer {
    Transfer {
        id,
        debit_account_id: from,
        credit_account_id: to,
        amount,
        ledger: 700,
        code: 10,
        ..Transfer::default()
    }
}

/// What a reply to create_transfers says: the transfers that were not accepted.
fn print_transfers(what: &str, reply: &Reply) -> Result<(), tb_embed::Error> {
    let failed = reply.transfer_results()?;
    println!("{what}: entry {}, {} failed", reply.commit, failed.len());
    for it in failed {
        println!("  transfer {} of the request: {}", it.index, it.result);
    }
    Ok(())
}

fn main() -> Result<(), Box<dyn Error>> {
    let mut server = Server::open(1, 2)?;

    let reply = server.ask(MOMENT, &Request::register(CLIENT))?;
    let session = reply.session;
    println!("register: entry {}, session {session}", reply.commit);

    let cash = account(CASH, AccountFlags::default());
    let sales = account(SALES, AccountFlags::DEBITS_MUST_NOT_EXCEED_CREDITS);
    let request = Request::create_accounts(CLIENT, session, 1, vec![cash, sales]);
    let reply = server.ask(MOMENT, &request)?;
    let failed = reply.account_results()?.len();
    println!("create_accounts: entry {}, {failed} failed", reply.commit);

    let sale = transfer(11, CASH, SALES, 100);
    let request = Request::create_transfers(CLIENT, session, 2, vec![sale]);
    server.ask(MOMENT, &request)?;
    println!("create_transfers: the reply is lost");
    // the same request again: its first reply, and nothing is executed
    let reply = server.ask(MOMENT, &request)?;
    print_transfers("create_transfers, sent again", &reply)?;

    let refund = transfer(12, SALES, CASH, 250);
    let request = Request::create_transfers(CLIENT, session, 3, vec![refund]);
    let reply = server.ask(MOMENT, &request)?;
    print_transfers("create_transfers", &reply)?;

    let request = Request::lookup_accounts(CLIENT, session, 4, vec![CASH, SALES]);
    let reply = server.ask(MOMENT, &request)?;
    let found = reply.accounts()?;
    println!(
        "lookup_accounts: entry {}, {} found",
        reply.commit,
        found.len()
    );
    for it in found {
        let (debits, credits) = (it.debits_posted, it.credits_posted);
        println!(
            "  account {}: debits_posted {debits}, credits_posted {credits}",
            it.id
        );
    }
    Ok(())
}
