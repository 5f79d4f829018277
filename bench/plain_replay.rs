// The same job as `replay 1`, as one would write it without proofs: a trace of the first format on standard input, its report on standard output.
use std::collections::HashMap;
use std::io::{self, Read, Write};

struct Tenant {
    name: String,
    opening: u64,
    value: u64,
    added: u128,
    taken: u128,
}

fn main() -> io::Result<()> {
    let mut text = String::new();
    io::stdin().read_to_string(&mut text)?;
    let mut places: HashMap<&str, usize> = HashMap::new();
    let mut tenants: Vec<Tenant> = Vec::new();
    let mut rows: Vec<(usize, &str, usize, u64)> = Vec::new();
    for (at, line) in text.lines().enumerate().skip(1) {
        let mut fields = line.split(',');
        let mut field = || fields.next().expect("four fields");
        let (_worker, op, name, amount) = (field(), field(), field(), field());
        let amount: u64 = amount.parse().expect("a number");
        if op == "open" {
            places.insert(name, tenants.len());
            tenants.push(Tenant { name: name.to_string(), opening: amount, value: amount, added: 0, taken: 0 });
        } else {
            rows.push((at, op, places[name], amount));
        }
    }
    let mut report = Vec::new();
    for (at, op, place, amount) in rows {
        let tenant = &mut tenants[place];
        let before = tenant.value;
        let moved = match op {
            "take" => {
                let moved = amount.min(before);
                tenant.value -= moved;
                tenant.taken += u128::from(moved);
                moved
            }
            "add" | "direct" => {
                tenant.value += amount;
                tenant.added += u128::from(amount);
                amount
            }
            _ => 0,
        };
        writeln!(report, "row,{at},{before},{moved}")?;
    }
    for tenant in &tenants {
        writeln!(report, "total,{},{},{},{},{}", tenant.name, tenant.opening, tenant.added, tenant.taken, tenant.value)?;
    }
    io::stdout().write_all(&report)
}
