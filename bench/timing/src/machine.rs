//! What the figures were taken on.

use std::fs::read_to_string;

/// The processor, its cores, and how busy the machine was: figures of a busy one are worth little.
pub fn describe() -> String {
    let processor = read_to_string("/proc/cpuinfo").ok().and_then(|text| model_name(&text));
    let processor = processor.unwrap_or_else(|| "an unknown processor".into());
    let cores = std::thread::available_parallelism().map_or(1, |cores| cores.get());
    let load = read_to_string("/proc/loadavg").ok().and_then(|text| text.split(' ').next().map(String::from));
    let load = load.unwrap_or_else(|| "unknown".into());
    format!("Taken on {processor}, {cores} cores. Before the start the load was {load}; it should be near 0.")
}

fn model_name(cpuinfo: &str) -> Option<String> {
    let line = cpuinfo.lines().find(|line| line.starts_with("model name"))?;
    Some(line.split_once(':')?.1.trim().to_string())
}
