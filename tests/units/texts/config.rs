//! Tests of configuration files: `cy_config`, `cy_dag`, `cy_wiring`, `cy_sched` and `cy_report`
//! over texts that `cy_text` reads.
//! Each expected value is written out by hand from the rules of the formats.

mod checks;
mod dags;
mod placements;
mod scheds;
mod shapes;
mod texts;
mod values;
mod wirings;
