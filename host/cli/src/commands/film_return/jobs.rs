//! Reads films at once, and files them in their order.
use super::{file, Filed, Options};
use chaldoref::FilmReturn;
use std::collections::BTreeMap;
use std::ffi::OsString;
use std::sync::atomic::{AtomicUsize, Ordering};
use std::sync::mpsc::{self, Receiver};
use std::thread;

/// What became of a film, and the return of it alone.
type Alone = (usize, Filed, FilmReturn);

/// Files all films; what became of each is told in their order. With several jobs each film makes a return of its own, and these are joined in
/// the order of the films, which gives the same return.
pub fn file_all(names: &[OsString], options: &Options, mut tell: impl FnMut(Filed)) -> FilmReturn {
    let mut totals = FilmReturn::new();
    let next = AtomicUsize::new(0);
    thread::scope(|scope| {
        let (to, films) = mpsc::channel();
        let mut jobs = 0;
        while options.jobs > 1 && jobs < options.jobs.min(names.len()) {
            let (to, next) = (to.clone(), &next);
            let work = move || {
                while let Some((i, name)) = taken(names, next) {
                    let mut own = FilmReturn::new();
                    let film = file(name.clone(), &mut own, options.csv);
                    if to.send((i, film, own)).is_err() {
                        return;
                    }
                }
            };
            // Where the system has no room for one more, there are fewer.
            if thread::Builder::new().spawn_scoped(scope, work).is_err() {
                break;
            }
            jobs += 1;
        }
        drop(to);
        if jobs > 0 {
            in_order(&films, |film, own| tell(joined(&mut totals, film, &own)));
        }
    });
    while let Some((_, name)) = taken(names, &next) {
        tell(file(name.clone(), &mut totals, options.csv));
    }
    totals
}

/// The next film that no one has taken.
fn taken<'n>(names: &'n [OsString], next: &AtomicUsize) -> Option<(usize, &'n OsString)> {
    let i = next.fetch_add(1, Ordering::Relaxed);
    names.get(i).map(|name| (i, name))
}

/// Hands on what the workers send, each after the one before it.
fn in_order(films: &Receiver<Alone>, mut hand_on: impl FnMut(Filed, FilmReturn)) {
    let (mut waiting, mut next) = (BTreeMap::new(), 0);
    for (i, film, own) in films {
        waiting.insert(i, (film, own));
        while let Some((film, own)) = waiting.remove(&next) {
            hand_on(film, own);
            next += 1;
        }
    }
}

/// Adds the return of one film. Where it does not fit, it is skipped, as it is where films are filed one after the other.
fn joined(totals: &mut FilmReturn, film: Filed, own: &FilmReturn) -> Filed {
    if film.is_skipped() {
        return film;
    }
    match totals.join(own) {
        Ok(()) => film,
        Err(refusal) => Filed::skipped(film.name, refusal.into()),
    }
}
