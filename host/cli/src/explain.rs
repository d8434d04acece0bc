//! Why a film is refused, in the words of the reference. No one has proved them, so they are kept only where the reference refuses with the number of
//! the library, which is proved.
use chaldoref::{Moov, Refusal};
use reference::movie::{explain, explain_strictly, Film, MoovAlone};
use std::panic::{self, UnwindSafe};

/// What a function answers, or nothing where it stops at an error of its own: that must not take the place of the refusal, nor write anything.
fn unless_it_stops<T>(function: impl FnOnce() -> T + UnwindSafe) -> Option<T> {
    let hook = panic::take_hook();
    panic::set_hook(Box::new(|_| ()));
    let answer = panic::catch_unwind(function);
    panic::set_hook(hook);
    answer.ok()
}

/// Why a whole film, or what is lent for one, is refused.
pub fn explanation(film: &[u8], refusal: Refusal) -> Option<String> {
    explained(film, refusal)
}

/// The same of a moov that is lent alone.
pub fn explanation_alone(moov: &Moov, refusal: Refusal) -> Option<String> {
    let words = explained(&MoovAlone { moov: &moov.bytes[..], length: moov.length }, refusal)?;
    Some(format!("{words} (places are counted from the moov, which is at byte {})", moov.place))
}

fn explained<F: Film + UnwindSafe + ?Sized>(film: &F, refusal: Refusal) -> Option<String>
where
    for<'f> &'f F: UnwindSafe,
{
    // Only the slip writer, which reads strictly, refuses 11.
    let strictly = refusal == Refusal::StoredDuration;
    let (number, words) = unless_it_stops(|| if strictly { explain_strictly(film) } else { explain(film) })??;
    (number == refusal.number()).then_some(words)
}

#[cfg(test)]
mod tests {
    use super::*;
    use reference::film::w;

    #[test]
    fn words_are_kept_for_the_same_number_alone() {
        let mut film = w();
        film.remove("moov mvhd");
        let film = film.bytes();
        assert_eq!(explanation(&film, Refusal::AtomCount).as_deref(), Some("mvhd is absent from moov at byte 0"));
        assert_eq!(explanation(&film, Refusal::AtomSize), None);
        assert_eq!(explanation(&w().bytes(), Refusal::AtomCount), None);
    }

    #[test]
    fn an_error_of_the_reference_is_no_error_of_the_program() {
        let none: Vec<u8> = vec![];
        assert_eq!(unless_it_stops(|| none[0]), None);
        assert_eq!(unless_it_stops(|| 7), Some(7));
    }
}
