//! The library in WebAssembly beside the native one: check and canonical form, in Node.

use crate::contest::{contest, contestant};
use crate::inputs::{self, Order};
use crate::time;
use cimbrolau::raw;
use std::path::{Path, PathBuf};
use std::process::Command;

/// Prints the table, or says what is wrong.
pub fn measure() -> Result<(), String> {
    let root = Path::new(env!("CARGO_MANIFEST_DIR")).join("../..");
    let wasm = root.join("target/wasm/cimbrolau.wasm");
    if !wasm.exists() {
        return Err(
            "target/wasm/cimbrolau.wasm is not there; make it with tools/library wasm".into()
        );
    }
    println!("| call | input | native | WebAssembly, the call alone | ratio | through the module, with its copies |");
    println!("|---|---|---:|---:|---:|---:|");
    let mut cases: Vec<(String, Vec<u8>)> =
        [(1, "1 KiB"), (1 << 10, "1 MiB"), (256 << 10, "256 MiB")]
            .map(|(size, name)| (name.to_string(), inputs::ram(size << 10)))
            .into();
    for order in Order::ALL {
        let file = inputs::devices(4095, 16, order);
        cases.push((format!("4095 devices, {}", order.name()), file));
    }
    for (name, file) in cases {
        row(&root, &wasm, &name, &file)?;
    }
    Ok(())
}

fn row(root: &Path, wasm: &Path, name: &str, file: &[u8]) -> Result<(), String> {
    let mut out = vec![1; file.len()];
    let native = contest(
        &[contestant(|_| raw::check(file)), contestant(|out| raw::canonical(file, out))],
        &mut out,
    );
    let times = in_node(root, wasm, file)?;
    for (at, call) in ["check", "canonical"].into_iter().enumerate() {
        let (native, alone, whole) = (native.nanoseconds[at], times[2 * at], times[2 * at + 1]);
        println!(
            "| {call} | {name} | {} | {} | {:.2} | {} |",
            time(native),
            time(alone),
            alone / native,
            time(whole)
        );
    }
    Ok(())
}

/// The four numbers that `web/times.mjs` prints.
fn in_node(root: &Path, wasm: &Path, file: &[u8]) -> Result<Vec<f64>, String> {
    let path: PathBuf = root.join("target/wasm/measured");
    std::fs::write(&path, file).map_err(|fault| format!("{}: {fault}", path.display()))?;
    let run = Command::new("node").arg(root.join("web/times.mjs")).args([wasm, &path]).output();
    let _ = std::fs::remove_file(&path);
    let run = run.map_err(|fault| format!("node: {fault}"))?;
    let said = String::from_utf8_lossy(&run.stdout);
    let times: Vec<f64> = said.split_whitespace().filter_map(|word| word.parse().ok()).collect();
    if !run.status.success() || times.len() != 4 {
        return Err(format!("node: {}", String::from_utf8_lossy(&run.stderr)));
    }
    Ok(times)
}
