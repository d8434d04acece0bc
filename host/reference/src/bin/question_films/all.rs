//! All films that are asked questions as whole files.
use super::base::Films;
use super::{features, paper, peaks, profiles, refused, samples, times, tracks};

pub fn films() -> Films {
    let mut films = Films::new();
    paper::films(&mut films);
    samples::films(&mut films);
    times::films(&mut films);
    features::films(&mut films);
    peaks::films(&mut films);
    profiles::films(&mut films);
    tracks::films(&mut films);
    refused::films(&mut films);
    films
}
