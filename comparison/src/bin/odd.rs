//! Compares a program with the driver on odd inputs and in a conversation: odd PORT_PROGRAM. Ends with 1 at a difference.

use std::process::exit;

use comparison::odd::{conversation, converse, inputs};
use comparison::program::run;
use comparison::shrink::first_difference;

fn main() {
    let arguments = std::env::args().skip(1).collect::<Vec<_>>();
    let [port] = &arguments[..] else {
        eprintln!("odd PORT_PROGRAM");
        exit(2);
    };
    let here = std::env::current_exe().expect("this program has a path");
    let driver = here.with_file_name("driver").to_string_lossy().into_owned();
    let mut different = 0;
    for (name, input) in inputs() {
        let answer = |program: &str| match run(program, &input) {
            (written, None) => Ok(written),
            (_, Some(remark)) => Err(remark),
        };
        different += u32::from(!same(&name, answer(&driver), answer(port)));
    }
    let text = conversation();
    different +=
        u32::from(!same("a conversation", converse(&driver, &text), converse(port, &text)));
    exit(i32::from(different > 0));
}

/// Whether both have answered, and the same.
fn same(name: &str, driver: Result<Vec<u8>, String>, port: Result<Vec<u8>, String>) -> bool {
    match (driver, port) {
        (Ok(driver), Ok(port)) => match first_difference(&driver, &port) {
            None => {
                println!("{name}: the same {} bytes", driver.len());
                return true;
            }
            Some(place) => println!("{name}: different at answer {}", place + 1),
        },
        (driver, port) => {
            for (which, result) in [("driver", driver), ("port", port)] {
                if let Err(remark) = result {
                    println!("{name}: {which}: {remark}");
                }
            }
        }
    }
    false
}
