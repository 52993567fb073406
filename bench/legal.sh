#!/usr/bin/env bash
# Times the legality of journals of one lane, by the walk with an index and by a scan of all records before each one.
#
#   bench/legal.sh [ROUNDS]
#
# For a leader's and a helper's lane of 1,000 to 50,000 reports in jobs of 64 it prints the best of ROUNDS rounds (3) and
# the time of a record, and the scan's time up to 10,000 reports. The scan is the plain program of legal_journals' tests.
# It asserts no time; it fails only where the two answer otherwise.
set -euo pipefail

rounds=${1:-3}
repository=$(cd "$(dirname "$0")/.." && pwd)
scratch=$(mktemp -d)
trap 'rm -rf "$scratch"' EXIT

libraries='dap_bytes dap_batch dap_messages field_laws vdaf_api lane_records legal_journals'
mkdir -p "$scratch/crates/legal_bench/src"
cp "$repository/HANDLES" "$scratch/"
for crate in $libraries; do
    mkdir "$scratch/crates/$crate"
    cp -r "$repository/crates/$crate/"{src,specs,proofs} "$scratch/crates/$crate/"
    grep "^$crate:" "$repository/crates.txt" >>"$scratch/crates.txt"
done
echo 'legal_bench: dap_bytes dap_batch dap_messages lane_records legal_journals anyhow' >>"$scratch/crates.txt"
cp "$repository/crates/legal_journals/src/tests/plain.rt" "$scratch/crates/legal_bench/src/"
cat >"$scratch/crates/legal_bench/src/main.rt" <<'END2'
//! Prints the microseconds of the legality of generated journals, by the walk and by the scan.
#![tactic(auto)]

mod plain;

use anyhow::Error;
use dap_bytes::{Bytes, Id, Name, Node, Part};
use dap_messages::{Half, Items, JobNo, Report, Step, Tagged};
use lane_records::{Format, Outcome, Record};
use legal_journals::legal;
use std::alloc::{AllocError, Global};
use std::time::Instant;

const A_JOB: u64 = 64;

/// Above this number of reports the scan takes too long.
const MOST_SCANNED: u64 = 10_000;

fn id_of(number: u64) -> Id {
    let [a, b, c, d, e, f, g, h] = number.to_be_bytes();
    [0, 0, 0, 0, 0, 0, 0, 0, a, b, c, d, e, f, g, h]
}

fn nothing(alloc: Global) -> Bytes {
    Bytes::new(Vec::new(alloc))
}

fn job(counter: u64) -> JobNo {
    JobNo {
        lane: 0,
        incarnation: 1,
        counter,
    }
}

fn accept(alloc: Global, name: Name, number: u64) -> Record {
    Record::Accept(Report {
        name,
        id: id_of(number),
        time: 10,
        public: nothing(alloc),
        leader: nothing(alloc),
        helper: nothing(alloc),
    })
}

fn steps(alloc: Global, first: u64) -> Result<Items<Step>, AllocError> {
    let mut items = Vec::new(alloc);
    for place in 0..A_JOB {
        let body = Step::Continued(nothing(alloc));
        let id = id_of(first.wrapping_add(place));
        items.push(Tagged { id, body })?;
    }
    Ok(Items::new(items))
}

fn halves(alloc: Global, first: u64) -> Result<Items<Half>, AllocError> {
    let mut items = Vec::new(alloc);
    for place in 0..A_JOB {
        let body = Half {
            time: 10,
            public: nothing(alloc),
            helper: nothing(alloc),
        };
        let id = id_of(first.wrapping_add(place));
        items.push(Tagged { id, body })?;
    }
    Ok(Items::new(items))
}

fn outcomes(alloc: Global, first: u64) -> Result<Items<Outcome>, AllocError> {
    let mut items = Vec::new(alloc);
    for place in 0..A_JOB {
        let body = Outcome::Finished(nothing(alloc));
        let id = id_of(first.wrapping_add(place));
        items.push(Tagged { id, body })?;
    }
    Ok(Items::new(items))
}

fn leaders(alloc: Global, name: Name, jobs: u64) -> Result<Vec<Record>, AllocError> {
    let mut records = Vec::new(alloc);
    records.push(Record::LeaderOpen(Format::Two, 1, 0))?;
    for counter in 0..jobs {
        let first = counter.wrapping_mul(A_JOB);
        for place in 0..A_JOB {
            records.push(accept(alloc, name, first.wrapping_add(place)))?;
        }
        records.push(Record::Continue(name, job(counter), steps(alloc, first)?))?;
        records.push(Record::Finish(job(counter), outcomes(alloc, first)?))?;
    }
    Ok(records)
}

fn helpers(alloc: Global, name: Name, jobs: u64) -> Result<Vec<Record>, AllocError> {
    let mut records = Vec::new(alloc);
    records.push(Record::HelperOpen(Format::Two, 1, 0))?;
    for counter in 0..jobs {
        let first = counter.wrapping_mul(A_JOB);
        records.push(Record::Start(job(counter), name, halves(alloc, first)?))?;
        records.push(Record::Commit(job(counter), outcomes(alloc, first)?))?;
    }
    Ok(records)
}

fn main(rt: HostRuntime) -> Result<(), Error> {
    let alloc = rt.alloc();
    let Some(name) = Name::new(b"task") else {
        return Ok(());
    };
    for reports in [1_000, 10_000, 50_000] {
        let jobs = reports / A_JOB;
        let lanes = [
            ("leader", Node::Leader, leaders(alloc, name, jobs)?),
            ("helper", Node::Helper, helpers(alloc, name, jobs)?),
        ];
        for (word, node, records) in lanes {
            let begun = Instant::now(&rt)?;
            let found = legal(alloc, Part::Lane(0), node, &records)?;
            let took = begun.elapsed(&rt)?;
            let count = records.len();
            let legal = found.is_none();
            println!(rt; "{word} walk {reports} {count} {} {legal}", took.as_nanos())?;
            if reports <= MOST_SCANNED {
                let begun = Instant::now(&rt)?;
                let same = plain::first_refused(node, 0, &records) == found;
                let took = begun.elapsed(&rt)?;
                println!(rt; "{word} scan {reports} {count} {} {same}", took.as_nanos())?;
            }
        }
    }
    Ok(())
}
END2

(cd "$scratch/crates/legal_bench" && rt run >"$scratch/build.log" 2>&1) || {
    cat "$scratch/build.log"
    exit 1
}

for _ in $(seq "$rounds"); do
    "$scratch/crates/legal_bench/out/legal_bench" >>"$scratch/times"
done
awk '$6 != "true" { print "another answer: " $0; exit 1 }
    { key = $1 " " $2 " " $3; count[key] = $4; if (!(key in best) || $5 < best[key]) best[key] = $5 }
    END { for (key in best) printf "%-22s %8d records %10.3f ms %9.1f ns a record\n", key, count[key], best[key] / 1e6, best[key] / count[key] }' \
    "$scratch/times" | sort -k1,2 -k3n
