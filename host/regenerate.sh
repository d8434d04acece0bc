#!/usr/bin/env bash
# Rewrites the stored outputs of the test programs, and the slips, films and tables that they read, from the reference, which knows nothing of the library.
set -euo pipefail
cd "$(dirname "$0")/.."
made=$(mktemp -d)
trap 'rm -r "$made"' EXIT
cargo build --quiet --offline --manifest-path host/Cargo.toml --package reference
host/target/debug/slip_example > "$made/slip_example"
cp "$made/slip_example" crates/slip_example/stdout
for pair in slip_cases:slip_vectors films:structure_vectors tables:tables_vectors movie_films:movie_vectors question_films:question_vectors stretch_films:stretch_vectors step_films:step_vectors moov_films:moov_vectors profile_films:profile_vectors quay_films:quay_vectors compaction_films:compaction_vectors return_films:return_vectors; do
    name=${pair#*:}
    mkdir -p "$made/files/$name/data"
    "host/target/debug/${pair%:*}" "$made/files/$name/data" "$made/files/$name/args" > "$made/files/$name/stdout"
    rm -rf "crates/$name/data"
    cp -r "$made/files/$name/." "crates/$name"
done
# The listing program also has a film on its standard input; the films of the README come with it.
mkdir -p "$made/files/listing/data" "$made/films" films
host/target/debug/listing "$made/files/listing" "$made/films"
rm -rf crates/listing/data
cp -r "$made/files/listing/." crates/listing
cp "$made/films/"*.mov films
# So does the example of the README, which has the film of two hoses there.
mkdir -p "$made/files/hoses_example/data"
host/target/debug/hoses_example "$made/files/hoses_example"
rm -rf crates/hoses_example/data
cp -r "$made/files/hoses_example/." crates/hoses_example
# The film return has names on its standard input.
mkdir -p "$made/files/film_totals/data"
host/target/debug/film_totals "$made/files/film_totals"
rm -rf crates/film_totals/data
cp -r "$made/files/film_totals/." crates/film_totals
