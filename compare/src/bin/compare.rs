//! Random sessions, call lists with trials, lines for the host end, lines for the desk and previews through the proved
//! code and through the reference.

use compare::batch::Batch;
use compare::counted::{grouped, Counted};
use compare::pair::Item;
use compare::program::{self, Places};
use compare::wish::Wish;
use compare::workers::run_all;
use compare::{hosted, list, preview, session, worded};
use std::fmt::Display;
use std::process::exit;

const USAGE: &str = "usage: compare [--sessions N] [--ticks N] [--vectors N] [--words N] [--previews N] [SEED ...], \
                     from the root of the repository";

/// One part of a run.
type Part = fn(&Wish, &Places);

/// Says why nothing is run.
fn give_up(words: &str) -> ! {
    eprintln!("{words}{USAGE}");
    exit(2)
}

/// Runs all items; ends the program with the first difference.
fn all<T: Sync, C: Counted>(items: &[T], run: impl Fn(usize, &T) -> Result<C, String> + Sync) -> C {
    run_all(items, run).unwrap_or_else(|difference| {
        println!("{difference}");
        exit(1)
    })
}

fn tell(what: &str, count: u64, seen: impl Display) {
    print!("{what}: {}\n{seen}  no difference\n", grouped(count));
}

fn run_sessions(wish: &Wish, places: &Places) {
    let run = |core, item: &Item| session::compare(places, *item, &format!("working-{core}.in"));
    let seen = all(&wish.sessions(), run);
    tell("sessions through the two bench programs", seen.items, seen);
}

fn run_lists(wish: &Wish, places: &Places) {
    let seen = all(&wish.lists(), |_, list| list::compare(&places.folder, *list));
    tell("call lists through library and reference", seen.items, seen);
}

fn run_vectors(wish: &Wish, places: &Places) {
    let run = |core, batch: &Batch| hosted::compare(places, *batch, &format!("working-{core}.vectors"));
    let seen = all(&wish.batches(wish.vectors), run);
    tell("lines through the two host ends", seen.lines, seen);
}

fn run_words(wish: &Wish, places: &Places) {
    let run = |core, batch: &Batch| worded::compare(places, *batch, &format!("working-{core}.words"));
    let seen = all(&wish.batches(wish.words), run);
    tell("lines through the two desks", seen.lines, seen);
}

fn run_previews(wish: &Wish, places: &Places) {
    let run = |core, item: &Item| preview::compare(places, *item, &format!("working-{core}.preview"));
    let seen = all(&wish.previews(), run);
    tell("sessions through the two programs preview", seen.seen.items, seen);
}

fn main() {
    let wish = Wish::of_arguments(std::env::args().skip(1)).unwrap_or_else(|| give_up(""));
    let places = Places::of_repository();
    if let Some(program) = places.absent() {
        give_up(&format!("{} is absent: run `sh compare/build.sh` first\n", program.display()));
    }
    program::make_folder();
    println!("seeds {:?}", wish.seeds);
    let parts: [(u64, Part); 5] = [
        (wish.sessions, run_sessions),
        (wish.ticks, run_lists),
        (wish.vectors, run_vectors),
        (wish.words, run_words),
        (wish.previews, run_previews),
    ];
    for (count, run) in parts {
        if count > 0 {
            run(&wish, &places);
        }
    }
}
