//! Plain Rust at the work of `livevec serve`: a thread for each file, one `Vec` behind a `Mutex` with the journal of its edits, each best
//! run folded under the lock. Replies go to FILE.out, the journal to standard output.
use std::fs::File;
use std::io::{BufRead, BufReader, BufWriter, Write};
use std::sync::Mutex;

include!("peers/runs.rs");

#[derive(Default)]
struct Desk {
    elements: Vec<i64>,
    journal: Vec<(Option<usize>, i64)>,
}

fn answer(desk: &Mutex<Desk>, line: &str, out: &mut impl Write) -> std::io::Result<()> {
    let words: Vec<&str> = line.split_ascii_whitespace().collect();
    match words[..] {
        ["push", x] => {
            let x = x.parse().unwrap();
            let (edit, index) = {
                let mut desk = desk.lock().unwrap();
                desk.elements.push(x);
                desk.journal.push((None, x));
                (desk.journal.len(), desk.elements.len() - 1)
            };
            writeln!(out, "edit {edit} at {index}")
        }
        ["write", i, x] => {
            let (i, x): (usize, i64) = (i.parse().unwrap(), x.parse().unwrap());
            let (edit, before) = {
                let mut desk = desk.lock().unwrap();
                let before = std::mem::replace(&mut desk.elements[i], x);
                desk.journal.push((Some(i), x));
                (desk.journal.len(), before)
            };
            writeln!(out, "edit {edit} was {before}")
        }
        ["reduce", "best", lo, hi] => {
            let (lo, hi): (usize, usize) = (lo.parse().unwrap(), hi.parse().unwrap());
            let (edit, best) = {
                let desk = desk.lock().unwrap();
                (desk.journal.len(), best_run(&desk.elements[lo..hi]))
            };
            match best {
                None => writeln!(out, "at {edit} best none"),
                Some(best) => writeln!(out, "at {edit} best {best}"),
            }
        }
        _ => unreachable!("no such line"),
    }
}

fn hold(desk: &Mutex<Desk>, file: &str) -> std::io::Result<()> {
    let lines = BufReader::with_capacity(1 << 16, File::open(file)?);
    let mut out = BufWriter::with_capacity(1 << 16, File::create(format!("{file}.out"))?);
    for line in lines.lines() {
        answer(desk, &line?, &mut out)?;
    }
    out.flush()
}

fn main() {
    let desk = Mutex::new(Desk::default());
    let files: Vec<String> = std::env::args().skip(1).collect();
    std::thread::scope(|scope| {
        for file in &files {
            let desk = &desk;
            scope.spawn(move || hold(desk, file).unwrap());
        }
    });
    let mut out = BufWriter::with_capacity(1 << 16, std::io::stdout().lock());
    for (index, x) in desk.into_inner().unwrap().journal {
        match index {
            None => writeln!(out, "j push {x}").unwrap(),
            Some(i) => writeln!(out, "j write {i} {x}").unwrap(),
        }
    }
}
