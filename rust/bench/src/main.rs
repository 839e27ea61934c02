//! Times of the proved library beside the reference: same inputs, same run, as ratios.

mod cemi;
mod coupler;
mod inputs;
mod leak;
mod measure;
mod routing;
mod tp1;
mod tracer;
mod tunnelling;

fn main() {
    if !measure::is_told() {
        print_introduction();
    }
    tp1::rows();
    cemi::rows();
    routing::rows();
    coupler::rows();
    tracer::rows();
    tunnelling::rows();
    leak::rows();
}

fn print_introduction() {
    println!("Proved library beside the reference in Rust, both built for release.");
    println!("Both are real calls: the library's through its C surface, the reference's through");
    println!("functions that are never inlined. Batches alternate between the two; a time is the");
    println!(
        "median of the batches, for one call. Rooms are not cleared between calls. A read is the"
    );
    println!(
        "answer as each gives it: the library one number, the reference a frame; a read and its"
    );
    println!(
        "parts goes through the bindings. From one medium to another is a coupler step with a"
    );
    println!(
        "filter table; its size is the frame's on TP1. A repetition is marked repeated and agrees"
    );
    println!(
        "with the frame remembered; a differing frame is marked repeated too, but differs from the"
    );
    println!(
        "one remembered in a payload bit and is forwarded. Trace and why are of a site with all 255"
    );
    println!(
        "couplers and 32 filter tables; the reference floods it from line to line. Receive, send"
    );
    println!(
        "and confirm are calls of tunnelling on a table of four open channels. A float is read as a"
    );
    println!(
        "number or as two octets, and written with E 0 (small), 6 (middle) and 15 (largest); the"
    );
    println!("reference tries each E from 0 on. Take is a station's call with an increment.");
    if klumdray::LINKED == "emulated" {
        println!("NOT A MEASUREMENT: the library's code is for x86-64 and runs emulated here.");
    } else if cfg!(not(target_arch = "x86_64")) {
        println!("This machine is not x86-64: the library's own LLVM module was compiled for it.");
    }
    println!();
    measure::print_heading();
}
