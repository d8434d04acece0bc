//! The program's arguments.

pub const USAGE: &str = "compare [--seed N] [--films M] [--film I] [FILE...]
  --seed N   the seed of the films that are made (1)
  --films M  how many are made (300000)
  --film I   make film I of the seed, and compare nothing else
With files and none of these, only the files are compared.";

const SEED: u64 = 1;
const FILMS: u64 = 300_000;

#[derive(Debug, PartialEq)]
pub struct Options {
    pub seed: u64,
    /// How many films are made; none where only files are compared.
    pub films: Option<u64>,
    pub film: Option<u64>,
    pub files: Vec<String>,
}

/// The options, or what is wrong with them.
pub fn options(arguments: impl Iterator<Item = String>) -> Result<Options, String> {
    let (mut seed, mut films, mut film, mut files) = (None, None, None, Vec::new());
    let mut arguments = arguments;
    while let Some(argument) = arguments.next() {
        let place = match argument.as_str() {
            "--seed" => &mut seed,
            "--films" => &mut films,
            "--film" => &mut film,
            _ if argument.starts_with('-') => return Err(format!("{argument} is no option")),
            _ => {
                files.push(argument);
                continue;
            }
        };
        let number = arguments.next().and_then(|text| text.parse().ok());
        *place = Some(number.ok_or(format!("{argument} takes a number"))?);
    }
    let makes = files.is_empty() || seed.is_some() || films.is_some();
    let films = makes.then(|| films.unwrap_or(FILMS));
    Ok(Options { seed: seed.unwrap_or(SEED), films, film, files })
}

#[cfg(test)]
mod tests {
    use super::*;

    fn of(text: &str) -> Result<Options, String> {
        options(text.split_whitespace().map(str::to_string))
    }

    #[test]
    fn files_alone_make_no_films() {
        let files = vec!["a.mov".to_string()];
        assert_eq!(of("a.mov"), Ok(Options { seed: SEED, films: None, film: None, files: files.clone() }));
        assert_eq!(of("--seed 7 a.mov"), Ok(Options { seed: 7, films: Some(FILMS), film: None, files }));
    }

    #[test]
    fn what_is_no_option_is_refused() {
        assert!(of("--sed 7").is_err());
        assert!(of("--seed").is_err());
        assert!(of("--films many").is_err());
    }
}
