//! The ordinary program: the answers of `nms_tool` in plain Rust, without proofs. `bench/compare.sh` measures both.

mod audit;
mod board;
mod lines;
mod list;
mod live;
mod nbbo;
mod plan_text;
mod report;
mod script;
mod setup;
mod sweep;
mod text;
mod toml11;
mod types;
mod values;
mod versions;

use std::fs;
use std::io::{self, Read, Write};
use std::path::{Path, PathBuf};
use std::process::ExitCode;

use clap::{Parser, Subcommand};
use csv::ByteRecord;

use board::Boards;
use lines::{csv_reader, order_side, read_line, Line, LineFault, Reading};
use live::DeskOrder;
use setup::{read_setup, Setup, SETUP_K};
use types::*;

#[derive(Parser)]
#[command(name = "nms_tool", about = "Best quotes of Regulation NMS and a sweep order planner")]
struct Words {
    #[command(subcommand)]
    command: Option<Command>,
}

#[derive(Subcommand)]
enum Command {
    /// Answers a script from standard input
    Script {
        #[arg(long, value_name = "FILE")]
        setup: Option<PathBuf>,
    },
    /// Writes the report of a symbol after all changes
    Report {
        changes: PathBuf,
        sym: String,
        #[arg(long, value_name = "FILE")]
        setup: Option<PathBuf>,
    },
    /// Plans an order after all changes
    Plan {
        changes: PathBuf,
        side: String,
        sym: String,
        shares: String,
        limit: String,
        #[arg(long)]
        manual: bool,
        #[arg(long, value_name = "NAMES")]
        self_help: Option<String>,
        #[arg(long, value_name = "FILE")]
        setup: Option<PathBuf>,
    },
    /// Confirms a plan
    Check {
        changes: PathBuf,
        planfile: PathBuf,
        #[arg(long, value_name = "FILE")]
        setup: Option<PathBuf>,
    },
    /// Runs feeds and desks at once
    Live {
        orders: PathBuf,
        #[arg(required = true)]
        feed: Vec<PathBuf>,
        #[arg(long, value_name = "FILE")]
        setup: Option<PathBuf>,
    },
}

fn main() -> ExitCode {
    let words = match Words::try_parse() {
        Ok(words) => words,
        Err(fault) => {
            let _ = fault.print();
            return ExitCode::from(if fault.use_stderr() { 2 } else { 0 });
        }
    };
    match run(words.command.unwrap_or(Command::Script { setup: None })) {
        Ok(status) => ExitCode::from(status),
        Err(fault) => {
            eprintln!("nms_tool: {}", fault.code);
            ExitCode::from(fault.status)
        }
    }
}

fn run(command: Command) -> Result<u8, Fault> {
    let mut out = io::stdout().lock();
    match command {
        Command::Script { setup } => {
            let setup = load_setup(setup)?;
            script::run_script(&setup, io::stdin().lock(), &mut out)?;
        }
        Command::Report { changes, sym, setup } => {
            let setup = load_setup(setup)?;
            let sym = setup.roster.find_sym(sym.as_bytes()).ok_or(Fault::USAGE)?;
            let boards = board_of(&setup, &read_changes(&setup, &read_file(&changes)?)?);
            let mut out = io::BufWriter::new(out);
            report::report(boards.view(sym), &setup.roster, &mut out)
                .and_then(|()| out.flush())
                .map_err(|_| Fault::WRITE)?;
        }
        Command::Plan { changes, side, sym, shares, limit, manual, self_help, setup } => {
            let setup = load_setup(setup)?;
            let roster = &setup.roster;
            let order = Order {
                side: order_side(side.as_bytes()).ok_or(Fault::USAGE)?,
                sym: roster.find_sym(sym.as_bytes()).ok_or(Fault::USAGE)?,
                shares: text::parse_shares(shares.as_bytes()).filter(|&n| n > 0).ok_or(Fault::USAGE)?,
                limit: text::parse_price(limit.as_bytes()).filter(|&p| p > 0).ok_or(Fault::USAGE)?,
                manual,
                self_help: match self_help {
                    Some(names) => roster.find_parts(names.as_bytes()).ok_or(Fault::USAGE)?,
                    None => PartSet::default(),
                },
            };
            let boards = board_of(&setup, &read_changes(&setup, &read_file(&changes)?)?);
            let (plan, certificate) = sweep::plan(boards.view(order.sym), &order, &setup.fees);
            let mut answer = Vec::new();
            plan_text::write_plan(&plan, &certificate, roster, &mut answer);
            write_out(&mut out, &answer)?;
        }
        Command::Check { changes, planfile, setup } => {
            let setup = load_setup(setup)?;
            let (changes, planfile) = (read_file(&changes)?, read_file(&planfile)?);
            let tape = read_changes(&setup, &changes)?;
            let (plan, certificate) = plan_text::read_plan(&planfile, &setup.roster)?;
            let (answer, status) = match check(&setup, &tape, &plan, &certificate) {
                Ok(()) => ("CONFIRMED\n".to_owned(), 0),
                Err(audit::Doubt(code, None)) => (format!("DOUBT,{code}\n"), 4),
                Err(audit::Doubt(code, Some(breach))) => (format!("DOUBT,{code},{breach}\n"), 4),
            };
            write_out(&mut out, answer.as_bytes())?;
            return Ok(status);
        }
        Command::Live { orders, feed, setup } => {
            let setup = load_setup(setup)?;
            if feed.len() != usize::from(setup.feeds) {
                return Err(Fault::USAGE);
            }
            let orders = read_file(&orders)?;
            let feeds = feed.iter().map(|path| read_feed(path)).collect::<Result<Vec<_>, _>>()?;
            let orders = read_orders(&setup, &orders)?;
            let live = live::run_live(&setup, &feeds, &orders)?;
            let mut answer = Vec::new();
            answer.extend_from_slice(b"TAPE,");
            text::push_uint(&mut answer, live.tape.len() as u64);
            answer.push(b'\n');
            for closing in &live.closing {
                answer.extend_from_slice(b"ANSWER,");
                text::push_uint(&mut answer, closing.desk);
                answer.push(b',');
                text::push_uint(&mut answer, closing.number as u64);
                answer.push(b'\n');
                plan_text::write_plan(&closing.plan, &closing.certificate, &setup.roster, &mut answer);
            }
            write_out(&mut out, &answer)?;
        }
    }
    Ok(0)
}

fn write_out(out: &mut impl Write, answer: &[u8]) -> Result<(), Fault> {
    out.write_all(answer).and_then(|()| out.flush()).map_err(|_| Fault::WRITE)
}

fn load_setup(path: Option<PathBuf>) -> Result<Setup, Fault> {
    match path {
        None => read_setup(SETUP_K),
        Some(path) => {
            let bytes = read_file(&path)?;
            let text = std::str::from_utf8(&bytes).map_err(|_| Fault { code: "C1", status: 3 })?;
            read_setup(text)
        }
    }
}

fn read_file(path: &Path) -> Result<Vec<u8>, Fault> {
    fs::read(path).map_err(|_| Fault::READ)
}

fn read_feed(path: &Path) -> Result<Vec<u8>, Fault> {
    const MOST: u64 = 1_000_000_000;
    let mut text = Vec::new();
    let file = fs::File::open(path).map_err(|_| Fault::READ)?;
    let length = file.take(MOST + 1).read_to_end(&mut text).map_err(|_| Fault::READ)?;
    if length as u64 > MOST {
        return Err(Fault::TOO_LONG);
    }
    Ok(text)
}

/// The lines of a file, as from a script; those of other kinds than `kinds`
/// are refused.
fn read_lines<T>(
    setup: &Setup,
    text: &[u8],
    kinds: &[&[u8]],
    mut each: impl FnMut(Line) -> Result<T, Fault>,
) -> Result<Vec<T>, Fault> {
    let mut records = csv_reader(text);
    let mut record = ByteRecord::new();
    let mut found = Vec::new();
    while records.read_byte_record(&mut record).map_err(|_| Fault::READ)? {
        if !kinds.contains(&&record[0]) {
            return Err(LineFault::UnknownKind.into());
        }
        let line = read_line(&record, &setup.roster, Reading::Script { desks: setup.desks })?;
        found.push(each(line)?);
    }
    Ok(found)
}

fn read_changes(setup: &Setup, text: &[u8]) -> Result<Vec<Change>, Fault> {
    let mut length = 0;
    read_lines(setup, text, &[b"Q", b"S", b"X", b"R"], |line| match line {
        Line::Change(_) if length == setup.tape_limit => Err(Fault::TAPE_FULL),
        Line::Change(change) => {
            length += 1;
            Ok(change)
        }
        _ => unreachable!("these kinds are changes"),
    })
}

fn read_orders(setup: &Setup, text: &[u8]) -> Result<Vec<DeskOrder>, Fault> {
    read_lines(setup, text, &[b"O"], |line| match line {
        Line::Sweep { desk, order } => Ok(DeskOrder { desk, order }),
        _ => unreachable!("this kind is an order"),
    })
}

fn board_of(setup: &Setup, changes: &[Change]) -> Boards {
    let mut boards = setup.roster.board();
    for change in changes {
        boards.apply(change);
    }
    boards
}

fn check(setup: &Setup, tape: &[Change], plan: &Plan, certificate: &Certificate) -> Result<(), audit::Doubt> {
    let version = usize::try_from(plan.version).ok().and_then(|v| tape.get(..v));
    let changes = version.ok_or(audit::Doubt("A1", None))?;
    let boards = board_of(setup, changes);
    audit::confirm(boards.view(plan.order.sym), &plan.order, &setup.fees, plan, certificate)
}
