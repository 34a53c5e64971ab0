//! Values of the kit's lines, and of the client.
use std::time::Duration;

use tb_client::{
    Account, AccountFlags, Answer, Error, EventResult, Operation, Saved, Transfer, TransferFlags,
};

use crate::json::Json;

/// Why a line has no answer by the client.
pub enum Problem {
    /// The client reported this, with the results that were not accepted.
    Reported(Error),
    EventsFailed(Json),
    /// The answer of a call that was begun.
    Ended(Json),
    /// The types of Rust cannot hold this value.
    Never(String),
    /// This runner does not know it.
    Unknown(String),
}

impl From<Error> for Problem {
    fn from(error: Error) -> Problem {
        Problem::Reported(error)
    }
}

pub type Said = Result<Json, Problem>;

fn never<T>(given: Option<&Json>) -> Result<T, Problem> {
    Err(Problem::Never(format!("{given:?} is no such value")))
}

/// An unsigned integer of a type.
pub fn integer<T: TryFrom<u128>>(given: Option<&Json>) -> Result<T, Problem> {
    let number = given.and_then(|it| it.as_text().parse::<u128>().ok());
    match number.and_then(|it| T::try_from(it).ok()) {
        Some(number) => Ok(number),
        None => never(given),
    }
}

pub fn seconds(given: Option<&Json>) -> Result<Duration, Problem> {
    match given {
        Some(Json::Number(digits)) => match digits.parse().map(Duration::try_from_secs_f64) {
            Ok(Ok(time)) => Ok(time),
            _ => never(given),
        },
        _ => never(given),
    }
}

pub fn int(given: Option<&Json>) -> Result<i32, Problem> {
    match given {
        Some(Json::Number(digits)) => digits.parse().or_else(|_| never(given)),
        _ => never(given),
    }
}

/// The bits of flags: names, or an integer.
fn flags(given: &Json, name: impl Fn(u16) -> String) -> Result<u16, Problem> {
    let names = match given.as_list() {
        None => return integer(Some(given)),
        Some(names) => names,
    };
    names.iter().try_fold(0, |all, wanted| {
        let bit = (0..16)
            .map(|it| 1 << it)
            .find(|it| name(*it) == wanted.as_text());
        bit.map(|it| all | it)
            .ok_or_else(|| Problem::Unknown(format!("no flag {wanted}")))
    })
}

/// Whether a value is a record of this kind.
fn is_record(given: &Json, kind: &str) -> Result<(), Problem> {
    let is_kind = given.get("kind").map_or(true, |it| it.as_text() == kind);
    if given.get("id").is_some() && is_kind {
        Ok(())
    } else {
        never(Some(given))
    }
}

/// What reads a record of a kind, and what shows it.
macro_rules! record {
    ($kind:literal $record:ident $flags:ident $read:ident $show:ident: $($name:ident)*) => {
        pub fn $read(given: &Json) -> Result<$record, Problem> {
            is_record(given, $kind)?;
            let mut made = $record::default();
            $(if let Some(it) = given.get(stringify!($name)) {
                made.$name = integer(Some(it))?;
            })*
            if let Some(it) = given.get("flags") {
                made.flags = $flags(flags(it, |bit| $flags(bit).to_string())?);
            }
            Ok(made)
        }

        fn $show(it: &$record) -> Json {
            let mut fields = vec![$((stringify!($name).to_string(), Json::integer(it.$name))),*];
            let flags = shown_flags(it.flags.0, |bit| $flags(bit).to_string());
            fields.push(("flags".into(), flags));
            Json::Object(fields.into_iter().collect())
        }
    };
}

record! { "account" Account AccountFlags account shown_account:
    id debits_pending debits_posted credits_pending credits_posted user_data_128 user_data_64
    user_data_32 reserved ledger code timestamp
}

record! { "transfer" Transfer TransferFlags transfer shown_transfer:
    id debit_account_id credit_account_id amount pending_id user_data_128 user_data_64
    user_data_32 timeout ledger code timestamp
}

pub fn id(given: &Json) -> Result<u128, Problem> {
    integer(Some(given))
}

/// The items of a line: of a list, or so many like the first, with ids that rise.
pub fn items<T: Clone>(
    line: &Json,
    one: impl Fn(&Json) -> Result<T, Problem>,
    number: impl Fn(&mut T) -> &mut u128,
) -> Result<Vec<T>, Problem> {
    let given = match line.get("items") {
        None => return Ok(Vec::new()),
        Some(given) => given,
    };
    if let Some(list) = given.as_list() {
        return list.iter().map(one).collect();
    }
    let count = match given.get("count") {
        Some(Json::Number(digits)) => digits.parse::<u128>().ok(),
        _ => None,
    };
    let (count, first) = match (count, given.get("first")) {
        (Some(count), Some(first)) => (count, one(first)?),
        _ => return never(Some(given)),
    };
    Ok((0..count)
        .map(|more| {
            let mut next = first.clone();
            *number(&mut next) += more;
            next
        })
        .collect())
}

/// The bytes of text in hex.
pub fn bytes(hex: &str) -> Result<Vec<u8>, Problem> {
    let digits: Vec<u32> = hex.chars().filter_map(|it| it.to_digit(16)).collect();
    if digits.len() != hex.len() || digits.len() % 2 != 0 {
        return never(Some(&Json::text(hex)));
    }
    Ok(digits
        .chunks(2)
        .map(|it| (it[0] << 4 | it[1]) as u8)
        .collect())
}

// What the client returned

fn shown_flags(bits: u16, name: impl Fn(u16) -> String) -> Json {
    let set: Vec<u16> = (0..16)
        .map(|it| 1 << it)
        .filter(|it| bits & it != 0)
        .collect();
    if set.iter().any(|it| name(*it).starts_with("0x")) {
        return Json::integer(bits);
    }
    Json::List(set.iter().map(|it| Json::text(&name(*it))).collect())
}

fn shown_results<R: std::fmt::Display>(results: &[EventResult<R>]) -> Json {
    let row = |it: &EventResult<R>| {
        Json::object([
            ("index", Json::Number(it.index.to_string())),
            ("result", Json::text(&it.result.to_string())),
        ])
    };
    Json::List(results.iter().map(row).collect())
}

fn records<R>(found: &[R], shown: impl Fn(&R) -> Json) -> Json {
    let records = found.iter().map(shown).collect();
    Json::object([("records", Json::List(records))])
}

/// An answer; events that failed are an error if that is asked for.
pub fn answer(line: &Json, given: &Answer) -> Said {
    let results = match given {
        Answer::Registered(session) => {
            return Ok(Json::object([("session", Json::integer(session))]))
        }
        Answer::Accounts(found) => return Ok(records(found, shown_account)),
        Answer::Transfers(found) => return Ok(records(found, shown_transfer)),
        Answer::AccountResults(results) => shown_results(results),
        Answer::TransferResults(results) => shown_results(results),
    };
    let is_required = line.get("require_ok") == Some(&Json::Bool(true));
    if is_required && results != Json::List(Vec::new()) {
        return Err(Problem::EventsFailed(results));
    }
    Ok(Json::object([("results", results)]))
}

pub fn saved(it: &Saved) -> Json {
    let hex = it.pending.iter().map(|it| format!("{it:02x}")).collect();
    Json::object([
        ("client", Json::integer(it.client)),
        ("session", Json::integer(it.session)),
        ("number", Json::integer(it.number)),
        ("pending", Json::Text(hex)),
    ])
}

/// The request in doubt, by its frame.
pub fn in_doubt(it: &Saved) -> Json {
    let (head, body) = match it.pending.split_at_checked(48) {
        None => return Json::Null,
        Some(parts) => parts,
    };
    let operation = Operation::from_number(head[28].into());
    let number = u32::from_le_bytes([head[24], head[25], head[26], head[27]]);
    let items = match operation {
        Operation::CreateAccounts => chunks(body, |it| shown_account(&Account::from_bytes(it))),
        Operation::CreateTransfers => chunks(body, |it| shown_transfer(&Transfer::from_bytes(it))),
        _ => chunks(body, |it: &[u8; 16]| {
            Json::integer(u128::from_le_bytes(*it))
        }),
    };
    Json::object([
        ("client", Json::integer(it.client)),
        ("session", Json::integer(it.session)),
        ("number", Json::integer(number)),
        ("operation", Json::text(&operation.to_string())),
        ("items", items),
    ])
}

fn chunks<const SIZE: usize>(body: &[u8], one: impl Fn(&[u8; SIZE]) -> Json) -> Json {
    let rows = body.chunks_exact(SIZE).filter_map(|it| it.try_into().ok());
    Json::List(rows.map(|it: &[u8; SIZE]| one(it)).collect())
}

/// An error by the kit's names.
pub fn error(why: &Error) -> Json {
    let (name, more) = match why {
        Error::Invalid { field, .. } => ("InvalidValue".into(), Some(("field", field))),
        Error::InDoubt { .. } => ("InDoubt".into(), None),
        Error::NothingInDoubt => ("NothingInDoubt".into(), None),
        Error::Closed => ("Closed".into(), None),
        Error::CannotConnect { .. } => ("CannotConnect".into(), None),
        Error::ReplyLost { told, .. } => ("ReplyLost".into(), Some(("told", told))),
        Error::Busy { told, .. } => ("Busy".into(), Some(("told", told))),
        Error::BadReply { .. } => ("BadReply".into(), None),
        Error::Refused { status } => (status.to_string(), None),
        Error::Cancelled { .. } => ("Cancelled".into(), None),
        Error::File { .. } => ("File".into(), None),
        other => (other.to_string(), None),
    };
    let mut fields = vec![
        ("name".to_string(), Json::Text(name)),
        ("sent".to_string(), Json::Bool(why.may_be_sent())),
        ("text".to_string(), Json::text(&why.to_string())),
    ];
    fields.extend(more.map(|(name, it)| (name.to_string(), Json::text(it))));
    Json::Object(fields.into_iter().collect())
}
