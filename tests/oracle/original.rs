//! The original: its five files, unchanged, with stand-ins for the modules that they name and that are not here.
//! `build` writes target/oracle/original.rs, this file with the sources' folder in place of SOURCES; nothing of it is copied.

#![allow(dead_code, unused_imports)]

#[path = "SOURCES/src/error.rs"]
pub mod error;

#[path = "SOURCES/src/network"]
pub mod network {
    pub mod branch;
    pub mod bus;
    pub mod reconfiguration;
    pub mod topology;

    /// Stand-in: `topology.rs` names it, no search calls it.
    pub mod admittance {
        use super::topology::PowerNetwork;
        use crate::error::Result;

        pub fn build_y_bus(_: &PowerNetwork) -> Result<sprs::CsMat<num_complex::Complex64>> {
            unimplemented!("the admittance matrix is a stand-in")
        }
    }

    /// Stand-ins: the file readers that `topology.rs` names, no search calls them.
    pub mod formats {
        macro_rules! reader {
            ($module:ident: $($name:ident),+) => {
                pub mod $module {
                    $(pub fn $name(_: &str) -> crate::error::Result<crate::network::topology::PowerNetwork> {
                        unimplemented!("the file formats are stand-ins")
                    })+
                }
            };
        }
        reader!(matpower: parse_matpower_file);
        reader!(ieee_cdf: parse_ieee_cdf_file);
        reader!(pandapower: parse_pandapower_file, parse_pandapower_string);
    }
}

/// Stand-in: tuple structs around an f64, as `bus.rs` and `topology.rs` use them (`.0`).
pub mod units {
    macro_rules! unit {
        ($($name:ident),+) => {
            $(#[derive(Debug, Clone, Copy, PartialEq)]
            pub struct $name(pub f64);)+
        };
    }
    unit!(Power, ReactivePower, Voltage);
}
