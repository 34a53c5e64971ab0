//! Makes transfers of 1 through a ledger in a file, one by one, and prints each that returned:
//! `selling FILE FIRST LAST`. One that is there already is of an earlier run. Then it waits for the
//! end of its input.
use std::io::Read;

use tb_client::{Account, Client, CreateTransferResult, Error, OpenOptions, Transfer};

fn sold(words: &[String]) -> Result<(), Error> {
    let options = OpenOptions {
        drop_torn: true, // a file has 16 copies of torn bytes at most
        ..OpenOptions::default()
    };
    let ledger = Client::open_with(&words[1], &options)?;
    ledger.create_accounts(&[1, 2].map(|id| Account {
        id,
        ledger: 700,
        code: 10,
        ..Account::default()
    }))?;
    let number = |at: usize| words[at].parse::<u128>().expect("a number");
    for id in number(2)..=number(3) {
        let refused = ledger.create_transfers(&[Transfer {
            id,
            debit_account_id: 1,
            credit_account_id: 2,
            amount: 1,
            ledger: 700,
            code: 10,
            ..Transfer::default()
        }])?;
        assert!(refused
            .iter()
            .all(|it| it.result == CreateTransferResult::Exists));
        println!("{id}");
    }
    std::io::stdin()
        .read_to_end(&mut Vec::new())
        .expect("an input");
    Ok(())
}

fn main() {
    let words: Vec<String> = std::env::args().collect();
    if words.len() != 4 {
        std::process::exit(2);
    }
    if let Err(why) = sold(&words) {
        eprintln!("{why}");
        std::process::exit(1);
    }
}
