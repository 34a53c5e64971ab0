//! The runner of this client for the conformance kit: a JSON line in, a JSON line out
//! (clients/conformance/PROTOCOL.md).
mod json;
mod values;

use std::collections::HashMap;
use std::io::{self, BufRead, Write};
use std::sync::{Arc, Mutex};
use std::thread::{self, JoinHandle};
use std::time::Duration;

use json::Json;
use tb_client::{Call, Client, Connect, Ids, Options, Session, SessionOptions, Tls, Transport};
use values::{integer, Problem, Said};

/// A call of a shared client that goes on.
struct Begun {
    call: Option<Arc<Call>>,
    answer: Mutex<Option<JoinHandle<Json>>>,
}

/// What the kit named, by its names.
#[derive(Default)]
struct Named {
    transports: HashMap<String, Arc<Transport>>,
    sessions: HashMap<String, Arc<Session>>,
    shared: HashMap<String, Arc<Client>>,
    begun: HashMap<String, Arc<Begun>>,
}

#[derive(Default)]
struct Runner(Mutex<Named>);

fn found<T>(all: &HashMap<String, Arc<T>>, line: &Json, field: &str) -> Result<Arc<T>, Problem> {
    all.get(line.text_of(field))
        .cloned()
        .ok_or_else(|| Problem::Unknown(format!("no such {field}")))
}

/// The limit of a call: the caller's own if it has one.
fn within(line: &Json) -> Result<Duration, Problem> {
    match line.get("within") {
        None => Ok(Duration::MAX),
        given => values::seconds(given),
    }
}

fn addresses(line: &Json) -> String {
    let list = line.get("addresses").and_then(Json::as_list).unwrap_or(&[]);
    let one = |it: &Json| match (it.get("unix"), it.get("port")) {
        (Some(path), _) => path.as_text().to_string(),
        (_, Some(port)) => format!("{}:{port}", it.text_of("host")),
        _ => String::new(),
    };
    list.iter().map(one).collect::<Vec<_>>().join(",")
}

fn connect(line: &Json) -> Result<Connect, Problem> {
    let mut options = Connect::default();
    if let given @ Some(_) = line.get("timeout") {
        options.timeout = values::seconds(given)?;
    }
    options.tls = line
        .get("tls")
        .filter(|it| **it != Json::Null)
        .map(|it| Tls {
            ca: it.text_of("ca").into(),
            certificate: it.get("cert").map(|it| it.as_text().into()),
            key: it.get("key").map(|it| it.as_text().into()),
        });
    Ok(options)
}

fn session_options(line: &Json) -> Result<SessionOptions, Problem> {
    let mut options = SessionOptions::default();
    if let given @ Some(_) = line.get("client") {
        options.client = Some(integer(given)?);
    }
    if let given @ Some(_) = line.get("attempts") {
        options.attempts = values::int(given)?;
    }
    if let given @ Some(_) = line.get("pause") {
        options.pause = values::seconds(given)?;
    }
    Ok(options)
}

fn no_operation(line: &Json) -> Problem {
    Problem::Never(format!("{:?} is no operation", line.get("operation")))
}

fn accounts(line: &Json) -> Result<Vec<tb_client::Account>, Problem> {
    values::items(line, values::account, |it| &mut it.id)
}

fn transfers(line: &Json) -> Result<Vec<tb_client::Transfer>, Problem> {
    values::items(line, values::transfer, |it| &mut it.id)
}

fn ids(line: &Json) -> Result<Vec<u128>, Problem> {
    values::items(line, values::id, |it| it)
}

/// Begins a call of a shared client.
fn begun(client: &Client, line: &Json) -> Result<Call, Problem> {
    Ok(match line.text_of("operation") {
        "create_accounts" => client.begin_create_accounts(&accounts(line)?)?,
        "create_transfers" => client.begin_create_transfers(&transfers(line)?)?,
        "lookup_accounts" => client.begin_lookup_accounts(&ids(line)?)?,
        "lookup_transfers" => client.begin_lookup_transfers(&ids(line)?)?,
        _ => return Err(no_operation(line)),
    })
}

fn prepared(session: &Session, line: &Json) -> Said {
    match line.text_of("operation") {
        "register" => session.prepare_register()?,
        "create_accounts" => session.prepare_accounts(&accounts(line)?)?,
        "create_transfers" => session.prepare_transfers(&transfers(line)?)?,
        "lookup_accounts" => session.prepare_account_lookup(&ids(line)?)?,
        "lookup_transfers" => session.prepare_transfer_lookup(&ids(line)?)?,
        _ => return Err(no_operation(line)),
    }
    Ok(Json::Null)
}

fn asked(session: &Session, line: &Json) -> Said {
    use tb_client::Answer;
    let limit = within(line)?;
    let answer = match line.text_of("operation") {
        "register" => {
            session.prepare_register()?;
            session.retry(limit)?
        }
        "create_accounts" => {
            Answer::AccountResults(session.create_accounts(&accounts(line)?, limit)?)
        }
        "create_transfers" => {
            Answer::TransferResults(session.create_transfers(&transfers(line)?, limit)?)
        }
        "lookup_accounts" => Answer::Accounts(session.lookup_accounts(&ids(line)?, limit)?),
        "lookup_transfers" => Answer::Transfers(session.lookup_transfers(&ids(line)?, limit)?),
        _ => return Err(no_operation(line)),
    };
    values::answer(line, &answer)
}

fn made_ids(line: &Json) -> Said {
    let times = match line.get("times").and_then(Json::as_list) {
        None => return ids_of_now(line),
        Some(times) => times,
    };
    let random = line.get("random").and_then(Json::as_list).unwrap_or(&[]);
    let (mut draws, mut ids) = (random.iter(), Ids::default());
    let mut made = Vec::new();
    for time in times {
        let id = ids.next_at(time.to_string().parse().unwrap_or(0), |bytes| {
            let hex = draws.next().map_or("", Json::as_text);
            if let Ok(drawn) = values::bytes(hex) {
                bytes.copy_from_slice(&drawn);
            }
        });
        made.push(Json::integer(id));
    }
    Ok(Json::List(made))
}

fn ids_of_now(line: &Json) -> Said {
    let number = |name| line.get(name).map_or(Ok(1), |it| values::int(Some(it)));
    let (count, threads) = (number("count")?, number("threads")?);
    let make = move || {
        (0..count / threads)
            .map(|_| tb_client::id())
            .collect::<Vec<_>>()
    };
    let started: Vec<_> = (0..threads).map(|_| thread::spawn(make)).collect();
    let ids = started
        .into_iter()
        .flat_map(|it| it.join().expect("it makes ids"));
    Ok(Json::List(ids.map(Json::integer).collect()))
}

impl Runner {
    fn named(&self) -> std::sync::MutexGuard<'_, Named> {
        self.0
            .lock()
            .expect("no call panics while it has the names")
    }

    fn session(&self, line: &Json) -> Result<Arc<Session>, Problem> {
        found(&self.named().sessions, line, "session")
    }

    fn transport(&self, line: &Json) -> Result<Arc<Transport>, Problem> {
        found(&self.named().transports, line, "transport")
    }

    fn keep(&self, line: &Json, session: Session) -> Arc<Session> {
        let (name, made) = (line.text_of("session").to_string(), Arc::new(session));
        self.named().sessions.insert(name, Arc::clone(&made));
        made
    }

    fn answer(self: &Arc<Self>, line: &Json) -> Json {
        answer_of(self.call(line))
    }

    fn call(self: &Arc<Self>, line: &Json) -> Said {
        match line.text_of("do") {
            "hello" => Ok(hello()),
            "reset" => Ok(self.reset()),
            "connect" => self.connect(line),
            "open" => self.open(line),
            "register" => self.register(line),
            "load" | "resume" => self.go_on(line),
            "prepare" => prepared(&*self.session(line)?, line),
            "retry" => {
                let answer = self.session(line)?.retry(within(line)?)?;
                values::answer(line, &answer)
            }
            "ask" if line.get("shared").is_some() => {
                let client = found(&self.named().shared, line, "shared")?;
                let answer = begun(&client, line)?.wait(within(line)?)?;
                values::answer(line, &answer)
            }
            "ask" => asked(&*self.session(line)?, line),
            "saved" => Ok(values::saved(&self.session(line)?.saved()?)),
            "in_doubt" => Ok(values::in_doubt(&self.session(line)?.saved()?)),
            "save" => {
                self.session(line)?.save(line.text_of("path"))?;
                Ok(Json::Null)
            }
            "close" => self.close(line),
            "drop" => {
                self.named().sessions.remove(line.text_of("session"));
                Ok(Json::Null)
            }
            "ids" => made_ids(line),
            "parallel" => self.parallel(line),
            "share" => self.share(line),
            "begin" => self.begin(line),
            "end" => self.end(line),
            "leave" => self.leave(line),
            other => Err(Problem::Unknown(format!("no call {other}"))),
        }
    }

    /// Closes transports and forgets names. A client whose request is in flight has no reply any
    /// more: it is closed by another thread, when its time is over.
    fn reset(&self) -> Json {
        let left = std::mem::take(&mut *self.named());
        left.begun
            .values()
            .filter_map(|it| it.call.as_ref())
            .for_each(|it| it.leave());
        left.transports.values().for_each(|it| it.close());
        thread::spawn(move || drop(left));
        Json::Null
    }

    fn connect(&self, line: &Json) -> Said {
        let made = Transport::new(&addresses(line), &connect(line)?)?;
        self.named()
            .transports
            .insert(line.text_of("transport").into(), made);
        Ok(Json::Null)
    }

    fn open(&self, line: &Json) -> Said {
        let session = Session::new(&self.transport(line)?, &session_options(line)?)?;
        let session = self.keep(line, session);
        Ok(Json::object([("client", Json::integer(session.client()))]))
    }

    fn register(&self, line: &Json) -> Said {
        let (transport, options) = (self.transport(line)?, session_options(line)?);
        let session = Session::register(&transport, &options, within(line)?)?;
        let saved = self.keep(line, session).saved()?;
        Ok(Json::object([
            ("client", Json::integer(saved.client)),
            ("session", Json::integer(saved.session)),
        ]))
    }

    fn go_on(&self, line: &Json) -> Said {
        let (transport, options) = (self.transport(line)?, session_options(line)?);
        let session = match line.get("saved") {
            None => Session::load(&transport, line.text_of("path"), &options)?,
            Some(given) => {
                let saved = tb_client::Saved {
                    client: integer(given.get("client"))?,
                    session: integer(given.get("session"))?,
                    number: integer(given.get("number"))?,
                    pending: values::bytes(given.text_of("pending"))?,
                };
                Session::resume(&transport, &saved, &options)?
            }
        };
        Ok(values::saved(&self.keep(line, session).saved()?))
    }

    fn close(&self, line: &Json) -> Said {
        if line.get("shared").is_some() {
            let client = found(&self.named().shared, line, "shared")?;
            client.close();
        } else if line.get("session").is_some() {
            self.session(line)?.transport().close();
        } else {
            self.transport(line)?.close();
        }
        Ok(Json::Null)
    }

    fn parallel(self: &Arc<Self>, line: &Json) -> Said {
        let calls = line.get("calls").and_then(Json::as_list).unwrap_or(&[]);
        let start = |call: &Json| {
            let (runner, call) = (Arc::clone(self), call.clone());
            thread::spawn(move || runner.answer(&call))
        };
        let started: Vec<_> = calls.iter().map(start).collect();
        let ended = started.into_iter().map(|it| it.join().expect("it answers"));
        Ok(Json::List(ended.collect()))
    }

    fn share(&self, line: &Json) -> Said {
        let mut options = Options {
            connect: connect(line)?,
            ..Options::default()
        };
        if let given @ Some(_) = line.get("sessions") {
            options.sessions = values::int(given)?;
        }
        let client = Client::with_options(&addresses(line), &options)?;
        self.named()
            .shared
            .insert(line.text_of("shared").into(), Arc::new(client));
        Ok(Json::Null)
    }

    /// Begins a call, for whose answer a thread waits.
    fn begin(&self, line: &Json) -> Said {
        let client = found(&self.named().shared, line, "shared")?;
        let (call, limit) = (begun(&client, line).map(Arc::new), within(line)?);
        let left = call.as_ref().ok().cloned();
        let line_of = line.clone();
        let answer = thread::spawn(move || {
            let said = call.and_then(|it| {
                let answer = it.wait(limit)?;
                values::answer(&line_of, &answer)
            });
            answer_of(said)
        });
        let made = Begun {
            call: left,
            answer: Mutex::new(Some(answer)),
        };
        self.named()
            .begun
            .insert(line.text_of("call").into(), Arc::new(made));
        Ok(Json::Null)
    }

    fn end(&self, line: &Json) -> Said {
        let begun = found(&self.named().begun, line, "call")?;
        let answer = begun
            .answer
            .lock()
            .expect("no thread panics with it")
            .take();
        match answer.map(JoinHandle::join) {
            Some(Ok(answer)) => Err(Problem::Ended(answer)),
            _ => Err(Problem::Unknown("the call was ended before".into())),
        }
    }

    fn leave(&self, line: &Json) -> Said {
        let begun = found(&self.named().begun, line, "call")?;
        if let Some(call) = &begun.call {
            call.leave();
        }
        Ok(Json::Null)
    }
}

/// The line of what a call said.
fn answer_of(said: Said) -> Json {
    let (name, value) = match said {
        Ok(value) => ("ok", value),
        Err(Problem::Ended(answer)) => return answer,
        Err(Problem::Reported(why)) => ("error", values::error(&why)),
        Err(Problem::EventsFailed(results)) => {
            let fields = [
                ("name", Json::text("EventsFailed")),
                ("sent", Json::Bool(true)),
                ("results", results),
            ];
            ("error", Json::object(fields))
        }
        Err(Problem::Never(why)) => ("unrepresentable", Json::Text(why)),
        Err(Problem::Unknown(why)) => ("unsupported", Json::Text(why)),
    };
    Json::object([(name, value)])
}

fn hello() -> Json {
    let features = [
        "unix",
        "tcp",
        "addresses",
        "tls",
        "parallel",
        "cancel",
        "shared",
    ];
    Json::object([
        ("protocol", Json::Number("1".into())),
        ("client", Json::text("tb_client")),
        ("language", Json::text("Rust")),
        ("features", Json::List(features.map(Json::text).to_vec())),
    ])
}

fn main() -> io::Result<()> {
    let (runner, mut out) = (Arc::new(Runner::default()), io::stdout());
    for line in io::stdin().lock().lines() {
        let line = json::read(&line?).ok_or(io::ErrorKind::InvalidData)?;
        writeln!(out, "{}", runner.answer(&line))?;
        out.flush()?;
    }
    Ok(())
}
