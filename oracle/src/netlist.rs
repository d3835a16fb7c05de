//! The Rust's own netlist held against document 01's list, line by line.
//!
//! `build_netlist` keeps one smaller number for each net number. A net that is merged twice under its larger number keeps
//! the second link and forgets the first, so the Rust may part what chains join; it must never join what they part.

use crate::list::{list_of, nets_of_pads};
use crate::original::{everywhere, number_of_kind, rows_of};
use crate::rows::Rows;
use crate::schematic::{Component, State};
use crate::symbol::Kind;
use std::collections::HashMap;
use zuse_core::net::Netlist;

/// How the two answers for one drawing compare.
#[derive(Debug, Clone, Copy, PartialEq, Eq)]
pub enum Agreement {
    /// The same lines up to their order and the nets' numbers, one to one.
    Same,
    /// The same lines, but the Rust forgot a link and has several nets for one of document 01's.
    Parted,
}

/// What a netlist must not be. Never seen of the Rust's own.
#[derive(Debug, Clone, Copy, PartialEq, Eq)]
pub enum Fault {
    /// Pads are on one net that no chain joins.
    Joined,
    /// Pads are on two nets that a chain joins, although no link was forgotten.
    Parted,
    /// With document 01's net numbers its lines aren't document 01's.
    OtherLines,
}

pub fn compare_netlist(state: &State) -> Result<Agreement, Fault> {
    judge_netlist(state, &state.build_netlist())
}

/// Holds a netlist of this drawing against document 01's list: its nets are renamed as document 01 has the pads that they
/// reach, net 0 staying 0, and then the lines must be the same, each as often.
pub fn judge_netlist(state: &State, netlist: &Netlist) -> Result<Agreement, Fault> {
    let rows = rows_of(state);
    let mut ours_of = HashMap::from([("N0", 0)]);
    let mut theirs_of = HashMap::from([(0, "N0")]);
    let mut parted = false;
    for (ours, theirs) in nets_side_by_side(state, &rows, netlist) {
        if *ours_of.entry(theirs).or_insert(ours) != ours {
            return Err(Fault::Joined);
        }
        parted |= *theirs_of.entry(ours).or_insert(theirs) != theirs;
    }
    let renamed = |net: &str| ours_of.get(net).map_or(net.to_string(), |ours| format!("N{ours}"));
    let list = String::from_utf8(list_of(&rows)).expect("labels are ASCII");
    if sorted(lines_of(netlist, renamed)) != sorted(list.lines().map(str::to_string).collect()) {
        return Err(Fault::OtherLines);
    }
    match (parted, forgets_a_link(state)) {
        (false, _) => Ok(Agreement::Same),
        (true, true) => Ok(Agreement::Parted),
        (true, false) => Err(Fault::Parted),
    }
}

fn sorted(mut lines: Vec<String>) -> Vec<String> {
    lines.sort_unstable();
    lines
}

/// For each pad in the list, its net by document 01 and its net in the netlist. A netlist has no positions, so the n-th
/// relay is the n-th coil that the tree tells, and contacts likewise have two switches each.
fn nets_side_by_side<'a>(state: &State, rows: &Rows, netlist: &'a Netlist) -> Vec<(usize, &'a str)> {
    let nets = nets_of_pads(rows);
    let nets_at = |part: &Component| {
        let row = rows.components.iter().position(|row| [row.x, row.y] == [part.position.x, part.position.y]);
        &nets[row.expect("each component has a row")]
    };
    let (mut of_coils, mut of_ways) = (Vec::new(), Vec::new());
    for part in state.components_iter(everywhere()) {
        match (part.symbol, &nets_at(part)[..]) {
            (Kind::Coil, &[n]) => of_coils.push(n),
            (Kind::Contact, &[c, a, b]) => of_ways.extend([[c, a], [c, b]]),
            _ => {}
        }
    }
    let relays = of_coils.into_iter().zip(&netlist.relays).map(|(n, relay)| (n, &relay.coil[..]));
    let switches = of_ways.into_iter().zip(&netlist.switches);
    relays.chain(switches.flat_map(|([c, to], switch)| [(c, &switch.l[..]), (to, &switch.r[..])])).collect()
}

/// Whether `build_netlist` writes over a link to another net. Its first half once more, as it keeps its links to itself.
fn forgets_a_link(state: &State) -> bool {
    let mut link: HashMap<usize, usize> = HashMap::new();
    let mut net_at: HashMap<[i32; 2], usize> = HashMap::new();
    let mut last = 0;
    for part in state.components_iter(everywhere()).filter(|part| number_of_kind(part.symbol) == 0) {
        net_at.insert(part.position.into(), 0);
    }
    for wire in state.wires_iter(&everywhere()) {
        match (net_at.get(&wire.from).copied(), net_at.get(&wire.to).copied()) {
            (None, None) => {
                last += 1;
                net_at.insert(wire.from, last);
                net_at.insert(wire.to, last);
            }
            (None, Some(net)) => drop(net_at.insert(wire.from, net)),
            (Some(net), None) => drop(net_at.insert(wire.to, net)),
            (Some(one), Some(other)) if one != other => {
                let least = follow(&link, one.min(other));
                let before = link.insert(one.max(other), least);
                if before.is_some_and(|before| follow(&link, before) != least) {
                    return true;
                }
            }
            _ => {}
        }
    }
    false
}

fn follow(link: &HashMap<usize, usize>, mut net: usize) -> usize {
    while let Some(&less) = link.get(&net) {
        net = less;
    }
    net
}

/// The Rust's netlist in the form of document 01's list, with the Rust's numbers in the Rust's order.
pub fn print_netlist(state: &State) -> Vec<u8> {
    let lines = lines_of(&state.build_netlist(), str::to_string);
    lines.iter().flat_map(|line| line.bytes().chain([b'\n'])).collect()
}

/// Relays and switches as document 01's lines, each net under another name.
fn lines_of(netlist: &Netlist, renamed: impl Fn(&str) -> String) -> Vec<String> {
    let relays = netlist.relays.iter().map(|relay| format!("R {} {} {}", renamed(&relay.coil), relay.a, relay.b));
    let switches = &netlist.switches;
    let switches = switches.iter().map(|way| format!("S {} {} {}", way.state, renamed(&way.l), renamed(&way.r)));
    relays.chain(switches).collect()
}
