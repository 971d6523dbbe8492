#!/usr/bin/env bash
# Times reactions of nets: chains of 10,000 to 1,000,000 gates (`or`, `and` and `not`, of which each reads the one before it, or the one
# behind it), and wide `or`s, by the work list. Printed are the nanoseconds of a gate and reaction, and the ratio of each time to the one
# before it at half or a tenth of the size. Making and reserving the nets is taken off, by a run without reactions.
set -eu
. "$(dirname "$0")/common.sh"
prepare settles hh_base host_expr hh_term net_list net_solution net_propagate sqlite_items
cat >"$work/crates/settles/src/main.rt" <<'R'
//! Settles nets of one shape: the words are the shape, the number of gates and the number of reactions. Tells how many gates are 1.
#![tactic(auto)]

ghost use Rattle.net_propagate.specs.Settling.{IsReserved};

use hh_base::memory::NoMemory;
use hh_base::value::Tri;
use host_expr::cell::Cells;
use net_list::gate::{NetGate, Wires};
use net_list::record::NetRecords;
use net_propagate::settle::{Place, reserve_records, settle_records};
use net_solution::question::Asked;
use sqlite_items::Items;
use std::alloc::Global;
use std::{env, io};

fn no_nets(alloc: Global) -> Result<NetRecords, NoMemory> {
    let mut registers = Items::new(alloc);
    registers.push((true, 0))?;
    Ok(NetRecords {
        version: 2,
        signals: Items::new(alloc),
        bodies: Items::new(alloc),
        registers,
        gates: Items::new(alloc),
        tests: Items::new(alloc),
        emits: Items::new(alloc),
        execs: Items::new(alloc),
        done: 0,
    })
}

fn one(alloc: Global, input: u32) -> Result<Wires, NoMemory> {
    let mut wires = Wires::new(alloc);
    wires.push(input)?;
    Ok(wires)
}

fn all(alloc: Global, count: u32) -> Result<Wires, NoMemory> {
    let mut wires = Wires::new(alloc);
    for gate in 0..count {
        wires.push(gate)?;
    }
    Ok(wires)
}

/// The gate that reads this one.
fn gate(alloc: Global, shape: &str, input: u32) -> Result<NetGate, NoMemory> {
    match shape {
        "or" => Ok(NetGate::Or(one(alloc, input)?)),
        "and" => Ok(NetGate::And(one(alloc, input)?)),
        _ => Ok(NetGate::Not(input)),
    }
}

fn add_forwards(alloc: Global, nets: &mut NetRecords, shape: &str, count: u32) -> Result<(), NoMemory> {
    nets.gates.push(NetGate::Reg(0))?;
    for input in 0..count {
        nets.gates.push(gate(alloc, shape, input)?)?;
    }
    Ok(())
}

fn add_backwards(alloc: Global, nets: &mut NetRecords, shape: &str, count: u32) -> Result<(), NoMemory> {
    for input in 0..count {
        nets.gates.push(gate(alloc, shape, input.saturating_add(1))?)?;
    }
    nets.gates.push(NetGate::Reg(0))?;
    Ok(())
}

/// A chain of `not`, which gets known gate by gate, and before it an `or` of all its gates.
fn add_wide(alloc: Global, nets: &mut NetRecords, count: u32) -> Result<(), NoMemory> {
    nets.gates.push(NetGate::Or(all(alloc, count)?))?;
    add_backwards(alloc, nets, "not", count)
}

fn settle_five(alloc: Global, nets: &NetRecords, asked: &Asked<'_>, place: &mut Place) -> Result<(), NoMemory>
    requires { IsReserved nets.now place.old }
    ensures { IsReserved nets.now place.new }
{
    settle_records(alloc, nets, asked, place)?;
    settle_records(alloc, nets, asked, place)?;
    settle_records(alloc, nets, asked, place)?;
    settle_records(alloc, nets, asked, place)?;
    settle_records(alloc, nets, asked, place)
}

fn settle_ten(alloc: Global, nets: &NetRecords, asked: &Asked<'_>, place: &mut Place) -> Result<(), NoMemory>
    requires { IsReserved nets.now place.old }
{
    settle_five(alloc, nets, asked, place)?;
    settle_five(alloc, nets, asked, place)
}

fn gates_at_one(place: &Place) -> usize {
    place.valuation.gates.iter().filter(|status| matches!(**status, Tri::One)).count()
}

fn settled(alloc: Global, nets: &NetRecords, ten: bool) -> Result<usize, NoMemory> {
    let cells = Cells {
        signals: Vec::new(alloc),
        args: Vec::new(alloc),
    };
    let asked = Asked {
        registers: &[true],
        cells: &cells,
        answered: &[],
        given: &[],
    };
    let mut place = reserve_records(alloc, nets)?;
    if ten {
        settle_ten(alloc, nets, &asked, &mut place)?;
    }
    Ok(gates_at_one(&place))
}

fn add_gates(alloc: Global, nets: &mut NetRecords, shape: &str, order: &str, count: u32) -> Result<(), NoMemory> {
    match order {
        "forwards" => add_forwards(alloc, nets, shape, count),
        "backwards" => add_backwards(alloc, nets, shape, count),
        _ => add_wide(alloc, nets, count),
    }
}

fn run(alloc: Global, shape: &str, order: &str, count: u32, ten: bool) -> Result<usize, NoMemory> {
    let mut nets = no_nets(alloc)?;
    add_gates(alloc, &mut nets, shape, order, count)?;
    settled(alloc, &nets, ten)
}

fn number(word: Option<&str>) -> u32 {
    match word {
        Some(word) => word.parse().unwrap_or(0),
        None => 0,
    }
}

fn main(rt: HostRuntime) -> io::Result<()> {
    let text = io::read_to_string(rt.alloc(), rt.reader())?;
    let ten = env::args(&rt)?.len() > 1;
    let mut words = text.as_str().split_whitespace();
    let shape = words.next().unwrap_or("");
    let order = words.next().unwrap_or("");
    let count = number(words.next());
    match run(rt.alloc(), shape, order, count, ten) {
        Ok(ones) => println!(rt; "{ones} gates are 1")?,
        Err(_) => println!(rt; "no memory")?,
    }
    Ok(())
}
R
build settles

seconds() { # INPUT WORDS: of processor time
    python3 - "$program" "$@" <<'P'
import resource, subprocess, sys
subprocess.run([sys.argv[1], *sys.argv[3:]], input=sys.argv[2].encode(), stdout=subprocess.DEVNULL, check=True)
print(resource.getrusage(resource.RUSAGE_CHILDREN).ru_utime)
P
}
settling() { # SHAPE ORDER
    local before="" count took
    for count in 10000 100000 200000 500000 1000000; do
        took=$(awk -v a="$(seconds "$1 $2 $count" ten)" -v b="$(seconds "$1 $2 $count")" 'BEGIN { print a - b }')
        awk -v name="$1 $2" -v count="$count" -v took="$took" -v before="$before" 'BEGIN {
            printf "%s, %d gates: %.1f ns a gate and reaction", name, count, took / 10 / count * 1e9
            if (before > 0) printf ", %.2f times the one before", took / before
            print ""
        }'
        before=$took
    done
}
for shape in or and not; do
    settling "$shape" forwards
    settling "$shape" backwards
done
settling not wide
