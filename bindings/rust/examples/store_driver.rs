//! Executes the lines that tests/library/embed/store_driver.c describes on a store.

use serf_agent::Store;
use std::io::{BufRead, Write};

fn bytes_of(hex: &str) -> Vec<u8> {
    let digits: Vec<u8> = hex.bytes().map(|digit| (digit as char).to_digit(16).unwrap_or(0) as u8).collect();
    digits.chunks_exact(2).map(|pair| pair[0] * 16 + pair[1]).collect()
}

/// Makes a call. Returns its result, or the name of its error.
fn make_call(store: &mut Option<Store>, call: &str, argument: &str) -> Result<String, String> {
    let error_name = |error: serf_agent::StoreError| format!("{:?}", error.kind());
    if call == "open" {
        *store = None;
        *store = Some(Store::open(argument).map_err(error_name)?);
        return Ok(String::new());
    }
    let open_store = store.as_mut().ok_or("Broken")?;
    match call {
        "read" => Ok(open_store.read().map_err(error_name)?.iter().map(|byte| format!("{byte:02x}")).collect::<String>() + " "),
        "append" => open_store.append(&bytes_of(argument)).map_err(error_name).map(|()| String::new()),
        "replace" => open_store.replace(&bytes_of(argument)).map_err(error_name).map(|()| String::new()),
        _ => {
            *store = None;
            Ok(String::new())
        }
    }
}

fn main() {
    let mut stores = [None, None];
    for line in std::io::stdin().lock().lines().map_while(Result::ok) {
        let (number, text) = line.strip_prefix("1 ").map_or((0, line.as_str()), |text| (1, text));
        let (call, argument) = text.split_once(' ').unwrap_or((text, ""));
        match make_call(&mut stores[number], call, argument) {
            Ok(text) => println!("{text}ok"),
            Err(name) => println!("{name}"),
        }
        let _ = std::io::stdout().flush();
    }
}
