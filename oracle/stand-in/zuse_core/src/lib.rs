//! Stands in for the crate `zuse_core`: the netlist that `build_netlist` hands to the simulator.

pub mod net {
    #[derive(Debug)]
    pub struct Netlist {
        pub relays: Vec<Relay>,
        pub switches: Vec<Switch>,
    }

    /// A coil on the net `coil` works the switches named `a` and `b`.
    #[derive(Debug, Clone)]
    pub struct Relay {
        pub coil: String,
        pub a: String,
        pub b: String,
    }

    /// A switch between the nets `l` and `r`.
    #[derive(Debug, Clone)]
    pub struct Switch {
        pub state: String,
        pub l: String,
        pub r: String,
    }
}
