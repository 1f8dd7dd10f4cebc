//! Runs a program, and then goes back from its end, an instruction at a time.
//!
//!     RV_LIB_DIR=../../../out/library cargo run --offline ../../sum.s

use std::{env, fs, process};

fn shown(path: &str) -> Result<(), Box<dyn std::error::Error>> {
    let executable = rv::build(&[&fs::read(path)?])?;
    let run = rv::run(&executable, b"", 1_000_000)?;
    println!("exit {:?}", run.code());
    let mut machines = vec![rv::resume(&executable, b"", b"", 0, 0, &mut [])?];
    for step in 1..run.count as usize {
        let before = &machines[step - 1].kept;
        machines.push(rv::resume(&executable, b"", before, 1, 0, &mut [])?);
    }
    for (steps, machine) in machines.iter().enumerate().rev() {
        let pc = machine.state.pc;
        let mut code = [0; 4];
        rv::resume(&executable, b"", &machine.kept, 0, pc, &mut code)?;
        let text = rv::disassemble(&code, pc).unwrap_or_default();
        println!("{steps:3} {pc:8x}: {text:20} a0 = {}", machine.state.registers[10]);
    }
    Ok(())
}

fn main() {
    let path = env::args().nth(1).unwrap_or_default();
    if let Err(error) = shown(&path) {
        eprintln!("steps: {error}");
        process::exit(1);
    }
}
