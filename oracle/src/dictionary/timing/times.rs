//! The table of times, as docs/SPEED.md has it: a row for each call on a dictionary.

#[derive(Default)]
pub struct Table {
    rows: Vec<Row>,
}

struct Row {
    dictionary: String,
    call: String,
    port: f64,
    /// None where the Rust has no such call.
    rust: Option<f64>,
}

impl Table {
    /// A row, or shorter times of one that is there.
    pub fn row(&mut self, dictionary: String, call: &str, port: f64, rust: Option<f64>) {
        let same = |row: &&mut Row| row.dictionary == dictionary && row.call == call;
        match self.rows.iter_mut().find(same) {
            Some(row) => {
                row.port = row.port.min(port);
                row.rust = row.rust.zip(rust).map(|(old, new)| old.min(new));
            }
            None => self.rows.push(Row { dictionary, call: call.into(), port, rust }),
        }
    }

    /// Says the dictionary where it is another one than in the row before.
    pub fn print(&self) {
        println!("| dictionary | call | library, ns | the Rust, ns | ratio |");
        println!("|---|---|---|---|---|");
        let mut before = "";
        for Row { dictionary, call, port, rust } in &self.rows {
            let named = if before == dictionary { "" } else { dictionary };
            let (rust_time, ratio) = match rust {
                Some(rust) => (nanoseconds(*rust), ratio(port / rust)),
                None => ("none".into(), String::new()),
            };
            println!("| {named} | {call} | {} | {rust_time} | {ratio} |", nanoseconds(*port));
            before = dictionary;
        }
    }
}

/// Whole ones from 100 on, hundredths below 10.
pub fn nanoseconds(time: f64) -> String {
    match time {
        ..10.0 => format!("{time:.2}"),
        ..100.0 => format!("{time:.1}"),
        _ => count(time as usize),
    }
}

pub fn ratio(ratio: f64) -> String {
    if ratio < 10.0 { format!("{ratio:.2}") } else { count(ratio as usize) }
}

/// With a comma before each three digits.
pub fn count(number: usize) -> String {
    let digits = number.to_string();
    let mut text = String::new();
    for (place, digit) in digits.chars().enumerate() {
        if place > 0 && (digits.len() - place) % 3 == 0 {
            text.push(',');
        }
        text.push(digit);
    }
    text
}
