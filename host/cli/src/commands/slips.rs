//! Slips that are read: what they say, or where they go wrong.
use super::ranges::{pair_fields, print_pairs};
use super::{refusal_fields, Answer, CLOCK};
use crate::failure::Failure;
use crate::fault::Fault;
use crate::json::Object;
use crate::table::{self, number};
use crate::time::clock_of;
use chaldoref::AnySlip;
use std::io;

/// What a slip says.
pub fn read(bytes: &[u8], to: Answer) -> Result<(), Failure> {
    let read = AnySlip::try_read(bytes).map_err(|no_memory| Failure::Input(no_memory.into()))?;
    let slip = read.map_err(|malformed| Failure::Malformed(Fault::of(bytes, malformed)))?;
    if to.json {
        return to.document(|o| {
            o.put("form", slip.form)?.put("track", slip.id)?.put("scale", slip.scale)?;
            o.time("a", slip.a, slip.scale)?.time("b", slip.b, slip.scale)?;
            o.list("pairs", &slip.pairs, pair_fields)?.put("bytes", slip.bytes()).map(drop)
        });
    }
    let columns = [number("track"), number("scale"), number("a"), number("b"), number("film time"), CLOCK];
    let [track, scale, a, b, time] = [slip.id, slip.scale, slip.a, slip.b, slip.film_time()].map(|n| n.to_string());
    let row = [track, scale, a, b, time, clock_of(slip.film_time(), slip.scale)];
    table::write(to.out, columns, &[row], |row| row.clone())?;
    writeln!(to.out)?;
    Ok(print_pairs(&slip.pairs, slip.bytes(), to.out)?)
}

/// Where a slip goes wrong, for machines.
pub fn fault_fields(o: &mut Object, fault: &Fault) -> io::Result<()> {
    refusal_fields(o, fault.refusal())?.put("place", u64::try_from(fault.place).unwrap_or(u64::MAX))?;
    o.put("number", fault.number.clone())?.put("rule", fault.rule.clone()).map(drop)
}
