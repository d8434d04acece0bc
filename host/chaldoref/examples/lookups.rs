//! Which samples a track shows at some media times, and where their bytes are: the film is judged once, and a lookup takes no more time late in the
//! track than at its beginning.
//!
//! ```text
//! lookups FILM TRACK TIME..
//! ```
use chaldoref::{MediaTime, Moov, Movie, TrackId};
use std::error::Error;
use std::fs::File;

fn main() -> Result<(), Box<dyn Error>> {
    let mut words = std::env::args().skip(1);
    let (Some(film), Some(id)) = (words.next(), words.next()) else {
        return Err("usage: lookups FILM TRACK TIME..".into());
    };
    let moov = Moov::read(File::open(film)?)?;
    let track = Movie::open(&moov)?.opened(id.parse::<TrackId>()?)?.indexed()?;
    for word in words {
        let time: MediaTime = word.parse()?;
        let n = track.sample_at(time)?.sample;
        let sample = track.sample(n)?;
        println!("media time {time}: sample {n}, {} bytes from byte {}", sample.size, sample.offset);
    }
    Ok(())
}
