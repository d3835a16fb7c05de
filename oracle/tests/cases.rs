//! The recorded cases in which the Rust and document 01 differ.

use oracle::drawing::Drawing;
use oracle::netlist::{compare_netlist, print_netlist, Agreement};
use oracle::original::Original;
use oracle::script::{lines, read_line, Command};
use rstar::Order;

/// The text below a title, to the next empty line.
fn section<'a>(case: &'a str, title: &str) -> &'a str {
    let (_, rest) = case.split_once(&format!("\n\n{title}\n")).expect(title);
    rest.split_once("\n\n").map_or(rest, |(section, _)| section).trim_end()
}

fn drawn(script: &str, order: Order) -> Original {
    let mut original = Original::new(order);
    for command in lines(script.as_bytes()).map(read_line) {
        if let Command::Edit(edit) = command {
            assert_eq!(original.edit(&edit).reply, 0);
        }
    }
    original
}

fn text(list: Vec<u8>) -> String {
    String::from_utf8(list).unwrap().trim_end().to_string()
}

#[test]
fn the_rust_forgets_a_link() {
    let case = include_str!("../cases/forgotten-link.txt");
    let script = section(case, "script");
    let oldest_first = drawn(script, Order::Insertion);
    assert_eq!(text(oldest_first.list()), section(case, "document 01"));
    assert_eq!(text(print_netlist(&oldest_first.state)), section(case, "the Rust, insertion order"));
    assert_eq!(compare_netlist(&oldest_first.state), Ok(Agreement::Parted));
    let newest_first = drawn(script, Order::Reverse);
    assert_eq!(text(print_netlist(&newest_first.state)), section(case, "the Rust, reverse order"));
    assert_eq!(compare_netlist(&newest_first.state), Ok(Agreement::Same));
}
