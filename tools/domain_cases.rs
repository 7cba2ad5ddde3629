// Writes the cases of the crate domain_cases, worked out with Rust's own i128 and f64.
//   rustc -O -o /tmp/domain_cases tools/domain_cases.rs && /tmp/domain_cases > crates/domain_cases/stdin
// A line is LAYERS BOTTOM CALL OPERANDS.. ANSWER, codes as 16 hexadecimal digits.

const LIMIT: i128 = 1_000_000_000_000_000;
const OPS: [&str; 4] = ["add", "sub", "mul", "div"];

enum Answer {
    Code(u64),
    Fault(u8, u8),
}

fn whole_lawful(code: u64) -> bool {
    let x = code as i64 as i128;
    -LIMIT <= x && x <= LIMIT
}

fn whole(op: &str, a: u64, b: u64) -> Answer {
    let (x, y) = (a as i64 as i128, b as i64 as i128);
    let z = match op {
        "add" => x + y,
        "sub" => x - y,
        "mul" => x * y,
        _ if y == 0 => return Answer::Fault(2, 1),
        _ => x / y,
    };
    if z.abs() <= LIMIT {
        Answer::Code(z as i64 as u64)
    } else {
        Answer::Fault(1, 1)
    }
}

fn binary64_lawful(code: u64) -> bool {
    f64::from_bits(code).is_finite()
}

fn binary64(op: &str, a: u64, b: u64) -> Answer {
    let (x, y) = (f64::from_bits(a), f64::from_bits(b));
    let z = match op {
        "add" => x + y,
        "sub" => x - y,
        "mul" => x * y,
        _ if y == 0.0 => return Answer::Fault(2, 1),
        _ => x / y,
    };
    if z.is_finite() {
        Answer::Code(z.to_bits())
    } else {
        Answer::Fault(1, 1)
    }
}

/// Each number and its negative, in order.
fn whole_codes() -> Vec<u64> {
    let limit = LIMIT as i64;
    let sizes = [0, 1, 2, 7, 3_600_000, 31_622_776, 31_622_777, limit - 1, limit, limit + 1];
    let mut numbers: Vec<i64> = sizes.iter().flat_map(|x| [*x, -x]).collect();
    numbers.push(i64::MIN);
    numbers.sort();
    numbers.dedup();
    numbers.iter().map(|x| *x as u64).collect()
}

/// Each code with either sign.
fn binary64_codes() -> Vec<u64> {
    let sizes: [u64; 15] = [
        0x0000000000000000, // zero
        0x0000000000000001, // the smallest subnormal number
        0x0000000000000003,
        0x000fffffffffffff, // the largest subnormal number
        0x0010000000000000, // the smallest normal number
        0x3ca0000000000000, // half of the last place of 1
        0x3fb999999999999a, // 0.1
        0x3fc999999999999a, // 0.2
        0x3ff0000000000000, // 1
        0x3ff0000000000001, // the number after 1
        0x4008000000000000, // 3
        0x4340000000000000, // 2^53: from here on not every whole number has a code
        0x7fefffffffffffff, // the largest number
        0x7ff0000000000000, // infinity
        0x7ff8000000000001, // no number
    ];
    sizes.iter().flat_map(|c| [*c, c | 1 << 63]).collect()
}

fn bottom(name: &str, codes: &[u64], lawful: fn(u64) -> bool, apply: fn(&str, u64, u64) -> Answer) {
    for a in codes {
        println!("0 {name} lawful {a:016x} {}", if lawful(*a) { "yes" } else { "no" });
    }
    for (i, a) in codes.iter().enumerate() {
        for (j, b) in codes.iter().enumerate() {
            if lawful(*a) && lawful(*b) {
                let layers = (i + 2 * j) % 4;
                println!("{layers} {name} same {a:016x} {b:016x} {}", if a == b { "yes" } else { "no" });
                for op in OPS {
                    match apply(op, *a, *b) {
                        Answer::Code(c) => println!("{layers} {name} {op} {a:016x} {b:016x} {c:016x}"),
                        Answer::Fault(c, h) => println!("{layers} {name} {op} {a:016x} {b:016x} fault {c} {h}"),
                    }
                }
            } else {
                // without a layer the answer at an unlawful code is free; with layers the outermost answers
                let layers = 1 + (i + j) % 3;
                let height = 1 + layers;
                println!("{layers} {name} {} {a:016x} {b:016x} fault 3 {height}", OPS[(i + 3 * j) % 4]);
            }
        }
    }
}

fn main() {
    bottom("whole", &whole_codes(), whole_lawful, whole);
    bottom("binary64", &binary64_codes(), binary64_lawful, binary64);
    for layers in [0u32, 1, 2, 3, 10, 253, 254, 255, 256, 300] {
        let height = (1 + layers).min(255);
        println!("{layers} whole height {height}");
        println!("{layers} binary64 height {height}");
        println!("{layers} whole div 0000000000000001 0000000000000000 fault 2 1");
        if layers > 0 {
            println!("{layers} binary64 mul 7ff0000000000000 0000000000000000 fault 3 {height}");
        }
    }
}
