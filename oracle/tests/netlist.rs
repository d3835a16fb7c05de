//! Netlists that are damaged on purpose: the comparison with document 01's list must find each.

use oracle::drawing::{run, Form};
use oracle::netlist::{judge_netlist, Agreement, Fault};
use oracle::original::Original;
use random::Random;
use rstar::Order;
use std::mem::swap;
use zuse_core::net::{Netlist, Relay, Switch};

/// Two relays, the second behind the first one's contact. No net has four wires, so that no tree order forgets a link.
const TWO_RELAYS: &str = "\
p 0 0 0 0\np 1 0 0 200 K1\np 2 0 -50 500 K1\np 1 0 300 500 K2\np 2 0 250 800 K2
v 0 0 100\nv -50 300 400\nv 50 300 350\nh 350 50 300\nv 300 350 400\nv 250 600 700\n";
const FORGOTTEN_LINK: &str = "p 0 0 0 0\np 1 3 300 300 K1\nh 300 -100 250\nv 0 0 300\n";

type Damage = fn(&mut Netlist);

fn verdict(script: &str, order: Order, damage: Damage) -> Result<Agreement, Fault> {
    let mut original = Original::new(order);
    run(&mut original, script.as_bytes(), Form::List);
    let mut netlist = original.state.build_netlist();
    damage(&mut netlist);
    judge_netlist(&original.state, &netlist)
}

/// The netlist of the two relays with this damage, in every tree order.
fn assert_found(fault: Fault, damage: Damage) {
    for order in [Order::Insertion, Order::Reverse, Order::Shuffled(Random(1)), Order::Middle] {
        assert_eq!(verdict(TWO_RELAYS, order, |_| {}), Ok(Agreement::Same));
        assert_eq!(verdict(TWO_RELAYS, order, damage), Err(fault));
    }
}

fn relay<'a>(netlist: &'a mut Netlist, label: &str) -> &'a mut Relay {
    netlist.relays.iter_mut().find(|relay| relay.a == format!("{label}.A")).expect(label)
}

fn switch<'a>(netlist: &'a mut Netlist, state: &str) -> &'a mut Switch {
    netlist.switches.iter_mut().find(|switch| switch.state == state).expect(state)
}

fn each_net(netlist: &mut Netlist, change: impl Fn(&mut String)) {
    netlist.relays.iter_mut().for_each(|relay| change(&mut relay.coil));
    netlist.switches.iter_mut().flat_map(|switch| [&mut switch.l, &mut switch.r]).for_each(change);
}

#[test]
fn a_and_b_swapped_in_a_relay() {
    assert_found(Fault::OtherLines, |netlist| {
        let Relay { a, b, .. } = relay(netlist, "K2");
        swap(a, b);
    });
}

#[test]
fn a_and_b_swapped_in_a_contact() {
    assert_found(Fault::OtherLines, |netlist| {
        switch(netlist, "K1.A").state = "K1.C".to_string();
        switch(netlist, "K1.B").state = "K1.A".to_string();
        switch(netlist, "K1.C").state = "K1.B".to_string();
    });
}

#[test]
fn labels_of_two_relays_exchanged() {
    assert_found(Fault::OtherLines, |netlist| {
        let [one, other] = &mut netlist.relays[..] else { panic!("two coils") };
        swap(&mut one.a, &mut other.a);
        swap(&mut one.b, &mut other.b);
    });
}

#[test]
fn labels_of_two_contacts_exchanged() {
    assert_found(Fault::OtherLines, |netlist| {
        for Switch { state, .. } in &mut netlist.switches {
            *state = match state.split_once('.').expect("a label and a way") {
                ("K1", way) => format!("K2.{way}"),
                (_, way) => format!("K1.{way}"),
            };
        }
    });
}

#[test]
fn sides_of_a_switch_exchanged() {
    assert_found(Fault::Joined, |netlist| {
        let Switch { l, r, .. } = switch(netlist, "K1.A");
        swap(l, r);
    });
    assert_found(Fault::Joined, |netlist| {
        netlist.switches.iter_mut().for_each(|Switch { l, r, .. }| swap(l, r));
    });
}

#[test]
fn a_line_missing() {
    assert_found(Fault::OtherLines, |netlist| drop(netlist.relays.pop()));
    assert_found(Fault::OtherLines, |netlist| drop(netlist.switches.pop()));
    assert_found(Fault::OtherLines, |netlist| netlist.switches.clear());
}

#[test]
fn a_line_twice() {
    assert_found(Fault::OtherLines, |netlist| netlist.relays.push(netlist.relays[0].clone()));
    assert_found(Fault::OtherLines, |netlist| netlist.switches.push(netlist.switches[0].clone()));
}

#[test]
fn nets_joined_and_nets_parted() {
    assert_found(Fault::Joined, |netlist| {
        let fed = switch(netlist, "K1.A").l.clone();
        switch(netlist, "K1.B").r = fed;
    });
    assert_found(Fault::Parted, |netlist| relay(netlist, "K1").coil = "N999".to_string());
    assert_found(Fault::Parted, |netlist| each_net(netlist, |net| *net = format!("N9{}", &net[1..])));
}

#[test]
fn lines_are_compared_where_a_link_is_forgotten_too() {
    let first = Order::Insertion;
    assert_eq!(verdict(FORGOTTEN_LINK, first, |_| {}), Ok(Agreement::Parted));
    let relabelled = verdict(FORGOTTEN_LINK, first, |netlist| netlist.switches[0].state = "K2.A".to_string());
    assert_eq!(relabelled, Err(Fault::OtherLines));
    let missing = verdict(FORGOTTEN_LINK, first, |netlist| drop(netlist.switches.pop()));
    assert_eq!(missing, Err(Fault::OtherLines));
}
