// Writes the functions of the benchmark of TERMS into a folder: `functions FOLDER`. Each comes as a clause text, as a clause text of its
// complement, and as a BLIF table; `index` has a line for each: its kind, its name and its contacts. The same files come out each time.
use std::fmt::Write;
use std::{env, fs, io, path::Path};

mod random;
use random::Random;

/// Literals: k for contact k closed, -k for open.
type Literals = Vec<i32>;

/// What a function is given by.
enum Form {
    /// It holds where every rule is met.
    Rules(Vec<Literals>),
    /// It holds where all the literals of one of the cubes agree.
    Cubes(Vec<Literals>),
    /// Rules of the function, and rules of its complement.
    Both(Vec<Literals>, Vec<Literals>),
}

struct Function {
    kind: &'static str,
    name: String,
    contacts: usize,
    form: Form,
}

/// So many lists of literals, whose sizes are taken in turn.
fn random(contacts: usize, count: usize, sizes: &[usize], seed: u64) -> Vec<Literals> {
    let mut random = Random::new(seed);
    (0..count).map(|place| random.rule(contacts, sizes[place % sizes.len()])).collect()
}

fn opposite(literals: &[i32]) -> Literals {
    literals.iter().map(|l| -l).collect()
}

/// The rules that each leave out one setting, of those with an odd or an even count of closed contacts.
fn parity(contacts: usize, odd: u32) -> Vec<Literals> {
    (0u32..1 << contacts)
        .filter(|setting| setting.count_ones() % 2 == odd)
        .map(|setting| (0..contacts as i32).map(|k| if setting >> k & 1 == 1 { -k - 1 } else { k + 1 }).collect())
        .collect()
}

/// Every choice of so many of the contacts.
fn choices(contacts: i32, size: usize) -> Vec<Literals> {
    (0u32..1 << contacts)
        .filter(|set| set.count_ones() as usize == size)
        .map(|set| (0..contacts).filter(|k| set >> k & 1 == 1).map(|k| k + 1).collect())
        .collect()
}

/// One of 2^selects data contacts behind the select contacts is passed on: the rules for a closed one, or for an open one.
fn selected(selects: i32, closed: bool) -> Vec<Literals> {
    (0..1 << selects)
        .map(|line| {
            let mut rule: Literals = (0..selects).map(|k| if line >> k & 1 == 1 { -k - 1 } else { k + 1 }).collect();
            let data = selects + 1 + line;
            rule.push(if closed { data } else { -data });
            rule
        })
        .collect()
}

/// The first number is greater than the second; their bits take turns, the highest first.
fn greater(bits: i32) -> Vec<Literals> {
    let mut cubes: Vec<Literals> = Vec::new();
    for bit in (0..bits).rev() {
        let (x, y) = (2 * bit + 1, 2 * bit + 2);
        let mut more = vec![vec![x, -y]];
        for cube in &cubes {
            more.push([&[x][..], cube].concat());
            more.push([&[-y][..], cube].concat());
        }
        cubes = more;
    }
    cubes
}

/// At most one contact of each bank is closed.
fn banks(count: i32, size: i32) -> Vec<Literals> {
    let mut rules = Vec::new();
    for bank in 0..count {
        for a in 1..=size {
            for b in a + 1..=size {
                rules.push(vec![-(bank * size + a), -(bank * size + b)]);
            }
        }
    }
    rules
}

/// Where a cube holds: each cube gets a variable of its own behind the contacts, and one of these is closed.
fn rules_of_cubes(contacts: usize, cubes: &[Literals]) -> (usize, Vec<Literals>) {
    let mut rules = vec![(1..=cubes.len()).map(|place| (contacts + place) as i32).collect()];
    for (place, cube) in cubes.iter().enumerate() {
        let own = (contacts + place + 1) as i32;
        rules.extend(cube.iter().map(|l| vec![-own, *l]));
    }
    (contacts + cubes.len(), rules)
}

impl Function {
    /// Variables and rules of the function, and of its complement.
    fn texts(&self) -> [(usize, Vec<Literals>); 2] {
        let n = self.contacts;
        match &self.form {
            Form::Rules(rules) => {
                let violations: Vec<Literals> = rules.iter().map(|r| opposite(r)).collect();
                [(n, rules.clone()), rules_of_cubes(n, &violations)]
            }
            Form::Cubes(cubes) => [rules_of_cubes(n, cubes), (n, cubes.iter().map(|c| opposite(c)).collect())],
            Form::Both(rules, others) => [(n, rules.clone()), (n, others.clone())],
        }
    }

    /// A table: the cubes where it holds, or those where it does not.
    fn blif(&self) -> String {
        let (cubes, value): (Vec<Literals>, char) = match &self.form {
            Form::Cubes(cubes) => (cubes.clone(), '1'),
            Form::Rules(rules) | Form::Both(rules, _) => (rules.iter().map(|r| opposite(r)).collect(), '0'),
        };
        let names: String = (1..=self.contacts).map(|k| format!(" x{k}")).collect();
        let mut text = format!(".model {}\n.inputs{names}\n.outputs f\n.names{names} f\n", self.name);
        for cube in &cubes {
            let mut row = vec!['-'; self.contacts];
            for l in cube {
                row[l.unsigned_abs() as usize - 1] = if *l > 0 { '1' } else { '0' };
            }
            writeln!(text, "{} {value}", row.iter().collect::<String>()).unwrap();
        }
        text + ".end\n"
    }
}

fn cnf(variables: usize, rules: &[Literals]) -> String {
    let mut text = format!("p cnf {variables} {}\n", rules.len());
    for rule in rules {
        for literal in rule {
            write!(text, "{literal} ").unwrap();
        }
        text.push_str("0\n");
    }
    text
}

fn functions() -> Vec<Function> {
    let mut all = Vec::new();
    let mut add = |kind, name: String, contacts, form| all.push(Function { kind, name, contacts, form });
    add("structured", "parity-7".into(), 7, Form::Both(parity(7, 0), parity(7, 1)));
    for (size, contacts) in [(4, 7), (5, 7), (6, 8)] {
        let few = choices(contacts, contacts as usize + 1 - size);
        let many = choices(contacts, size).iter().map(|c| opposite(c)).collect();
        add("structured", format!("at-least-{size}-of-{contacts}"), contacts as usize, Form::Both(few, many));
    }
    add("structured", "select-of-16".into(), 20, Form::Both(selected(4, true), selected(4, false)));
    for bits in [4, 5] {
        add("structured", format!("greater-of-{bits}-bits"), 2 * bits as usize, Form::Cubes(greater(bits)));
    }
    add("structured", "2-banks-of-5".into(), 10, Form::Rules(banks(2, 5)));
    add("structured", "3-banks-of-4".into(), 12, Form::Rules(banks(3, 4)));
    for (contacts, count, sizes) in [(16, 10, &[4, 5, 6][..]), (24, 16, &[6, 7, 8]), (32, 24, &[8, 9, 10]), (32, 32, &[10, 12, 14]), (16, 48, &[6, 7, 8]), (24, 40, &[7, 8, 9])] {
        for seed in 1..=3 {
            add("cubes", format!("{count}-cubes-of-{contacts}-{seed}"), contacts, Form::Cubes(random(contacts, count, sizes, 100 * count as u64 + seed)));
        }
    }
    for (contacts, count) in [(10, 6), (12, 7), (14, 8), (18, 9), (24, 10)] {
        for seed in 1..=2 {
            add("rules", format!("{count}-rules-of-{contacts}-{seed}"), contacts, Form::Rules(random(contacts, count, &[2, 3], 1000 * count as u64 + seed)));
        }
    }
    all
}

fn main() -> io::Result<()> {
    let folder = env::args().nth(1).expect("usage: functions FOLDER");
    let folder = Path::new(&folder);
    let mut index = String::new();
    for function in functions() {
        let name = &function.name;
        for (side, (variables, rules)) in ["make", "break"].iter().zip(function.texts()) {
            fs::write(folder.join(format!("{name}.{side}.cnf")), cnf(variables, &rules))?;
        }
        fs::write(folder.join(format!("{name}.blif")), function.blif())?;
        writeln!(index, "{} {name} {}", function.kind, function.contacts).unwrap();
    }
    fs::write(folder.join("index"), index)
}
