// Writes the clause texts of the benchmark into a folder: `generate FOLDER`. The same texts come out each time.
use std::fmt::Write;
use std::{env, fs, io, path::Path};

mod random;
use random::Random;

type Rule = Vec<i32>;

/// Rules over 64 variables, whose sizes are taken in turn.
fn random(count: usize, sizes: &[usize], seed: u64) -> Vec<Rule> {
    let mut random = Random::new(seed);
    (0..count).map(|place| random.rule(64, sizes[place % sizes.len()])).collect()
}

/// The same, met by a hidden assignment, so that the text is satisfiable.
fn planted(count: usize, sizes: &[usize], seed: u64) -> Vec<Rule> {
    let mut random = Random::new(seed);
    let hidden: Vec<i32> = (1..=64).map(|variable| random.sign() * variable).collect();
    let mut rules = Vec::new();
    while rules.len() < count {
        let rule = random.rule(64, sizes[rules.len() % sizes.len()]);
        if rule.iter().any(|l| hidden.contains(l)) {
            rules.push(rule);
        }
    }
    rules
}

/// At most `most` of the variables 1 to `among` are closed: one rule for each choice of one more.
fn at_most(among: i32, most: usize) -> Vec<Rule> {
    fn choose(from: i32, among: i32, left: usize, chosen: &mut Rule, rules: &mut Vec<Rule>) {
        if left == 0 {
            rules.push(chosen.clone());
            return;
        }
        for variable in from..=among {
            chosen.push(-variable);
            choose(variable + 1, among, left - 1, chosen, rules);
            chosen.pop();
        }
    }
    let mut rules = Vec::new();
    choose(1, among, most + 1, &mut Vec::new(), &mut rules);
    rules
}

/// A stage of 32 contacts: eight banks of four of which exactly one is closed, a contact of one bank excludes the like one
/// of the next, and some contacts imply one of two others further on.
fn interlock(seed: u64) -> Vec<Rule> {
    let mut random = Random::new(seed);
    let mut rules = Vec::new();
    for bank in 0..8 {
        let first = bank * 4 + 1;
        rules.push((first..first + 4).collect());
        for a in first..first + 4 {
            for b in a + 1..first + 4 {
                rules.push(vec![-a, -b]);
            }
            if bank < 7 {
                rules.push(vec![-a, -(a + 4)]);
            }
        }
    }
    for contact in 1..=20 {
        let bank_behind = (contact - 1) / 4 * 4 + 8;
        let one = bank_behind + 1 + random.below(4) as i32;
        let other = bank_behind + 1 + random.below(4) as i32;
        rules.push(vec![-contact, one, other]);
    }
    rules
}

/// Inner variable 32 + k is the parity of the contacts 1 to k, and the last is held to a value.
fn parity_chain(value: bool) -> Vec<Rule> {
    let mut rules = vec![vec![-33, 1], vec![33, -1]];
    for k in 2..=32 {
        let (before, contact, sum) = (31 + k, k, 32 + k);
        rules.push(vec![-before, -contact, -sum]);
        rules.push(vec![-before, contact, sum]);
        rules.push(vec![before, -contact, sum]);
        rules.push(vec![before, contact, -sum]);
    }
    rules.push(vec![if value { 64 } else { -64 }]);
    rules
}

/// Each of `pigeons` sits in one of `holes`, no two in one.
fn pigeons(pigeons: i32, holes: i32) -> Vec<Rule> {
    let sits = |pigeon: i32, hole: i32| pigeon * holes + hole + 1;
    let mut rules = Vec::new();
    for pigeon in 0..pigeons {
        rules.push((0..holes).map(|hole| sits(pigeon, hole)).collect());
    }
    for hole in 0..holes {
        for a in 0..pigeons {
            for b in a + 1..pigeons {
                rules.push(vec![-sits(a, hole), -sits(b, hole)]);
            }
        }
    }
    rules
}

/// A text of just under 60,000 bytes. Its first rule is empty, so that nothing but reading takes time.
fn long_text() -> Vec<Rule> {
    let mut random = Random::new(60_000);
    let mut rules: Vec<Rule> = vec![vec![]];
    let mut bytes = 100;
    while rules.len() < 4_096 {
        let rule = random.rule(64, 4);
        bytes += line(&rule).len();
        if bytes > 60_000 {
            break;
        }
        rules.push(rule);
    }
    rules
}

fn line(rule: &[i32]) -> String {
    let mut line = String::new();
    for literal in rule {
        write!(line, "{literal} ").unwrap();
    }
    line + "0\n"
}

fn text(variables: usize, rules: &[Rule]) -> String {
    let mut text = format!("p cnf {variables} {}\n", rules.len());
    for rule in rules {
        text += &line(rule);
    }
    text
}

fn main() -> io::Result<()> {
    let folder = env::args().nth(1).expect("usage: generate FOLDER");
    // kind, name, contacts, variables, rules
    let mut list = vec![
        ("structured", "interlock-a".to_string(), 32, 32, interlock(1)),
        ("structured", "interlock-b".to_string(), 32, 32, interlock(2)),
        ("structured", "parity-odd".to_string(), 32, 64, parity_chain(true)),
        ("structured", "parity-even".to_string(), 32, 64, parity_chain(false)),
        ("structured", "pigeons-6-into-5".to_string(), 30, 30, pigeons(6, 5)),
        ("structured", "at-most-3-of-16".to_string(), 16, 16, at_most(16, 3)),
        ("many", "rules-4096-planted".to_string(), 32, 64, planted(4_096, &[4, 4, 3], 40)),
        ("many", "rules-4096-random".to_string(), 32, 64, random(4_096, &[4, 4, 3], 41)),
    ];
    for seed in 1..=3 {
        list.push(("below", format!("random-3.5-{seed}"), 32, 64, random(224, &[3], seed)));
    }
    for seed in 1..=3 {
        list.push(("threshold", format!("planted-4.26-{seed}"), 32, 64, planted(273, &[3], 10 + seed)));
    }
    for seed in 1..=6 {
        list.push(("threshold", format!("random-4.26-{seed}"), 32, 64, random(273, &[3], 20 + seed)));
    }
    list.push(("reading", "long-text".to_string(), 32, 64, long_text()));

    let mut index = String::new();
    for (kind, name, contacts, variables, rules) in &list {
        let text = text(*variables, rules);
        assert!(text.len() <= 60_000 && rules.len() <= 4_096, "{name} is {} bytes", text.len());
        fs::write(Path::new(&folder).join(format!("{name}.cnf")), text)?;
        writeln!(index, "{kind} {name} {contacts}").unwrap();
    }
    fs::write(Path::new(&folder).join("index"), index)
}
