//! The folder of examples: its expected outputs, and what its pages say of its inputs.
use compare::boxed::{mistaken_outcome, outcome, SMALL};
use compare::cases::some_table;
use compare::chance::Chance;
use compare::conditions::broken;
use compare::forest::{Forest, Trees};
use compare::grammars::hosts;
use compare::judge::Machine;
use compare::make::{make, Sort};
use compare::sheet;
use compare::tails::tail;
use compare::traps::by_name;
use std::path::{Path, PathBuf};

/// The mistakes that add no reading.
const ADD_NONE: [&str; 4] = ["keeps-lower", "keeps-one", "highest", "exact"];

fn folder() -> PathBuf {
    Path::new(env!("CARGO_MANIFEST_DIR")).join("../examples")
}

fn input(name: &str) -> Vec<u8> {
    std::fs::read(folder().join(name)).expect(name)
}

/// The sheet and the tail of an input.
fn apart(input: &[u8]) -> (Vec<u8>, Vec<u16>) {
    let text = String::from_utf8(input.to_vec()).unwrap();
    let (sheet, line) = text.trim_end().rsplit_once('\n').unwrap();
    let tokens = line.strip_prefix("tail=").unwrap().split(' ').map(|t| t.parse().unwrap());
    (format!("{sheet}\n").into_bytes(), tokens.collect())
}

/// All files below a folder.
fn files(folder: &Path) -> Vec<PathBuf> {
    let entries = std::fs::read_dir(folder).unwrap().map(|entry| entry.unwrap().path());
    entries.flat_map(|path| if path.is_dir() { files(&path) } else { vec![path] }).collect()
}

#[test]
fn the_expected_outputs() {
    let inputs: Vec<PathBuf> = files(&folder()).into_iter().filter(|f| f.extension().is_some_and(|e| e == "txt")).collect();
    assert!(inputs.len() > 40);
    for file in inputs {
        let due = std::fs::read_to_string(file.with_extension("out")).unwrap();
        assert_eq!(outcome(&std::fs::read(&file).unwrap(), SMALL).to_string(), due, "{}", file.display());
    }
}

#[test]
fn six_hosts() {
    let table = make(&hosts(), Sort::Slr).expect("within the ranges");
    for host in 1..=6 {
        let input = input(&format!("hosts/six/host-{host}.txt"));
        let (sheet, tail) = apart(&input);
        assert_eq!(sheet, table.sheet());
        let last = tail.len() as u64 - 1;
        let right = outcome(&input, SMALL);
        assert_eq!((right.answer, right.value), (1, last), "host {host}");
        let shared = mistaken_outcome(&input, SMALL, by_name("shared-past").unwrap());
        assert_eq!((shared.answer, shared.value), (0, last + 1), "host {host}");
        for name in ADD_NONE {
            assert_eq!(mistaken_outcome(&input, SMALL, by_name(name).unwrap()).answer, 1, "host {host}, {name}");
        }
        // before the placeholder: one root, and two readings below it, the host's list and the chassis's
        let mut seen = Vec::new();
        Machine::of(&table).run::<Trees>(&tail[..tail.len() - 1], &mut |forest| seen.push((forest.roots(), forest.nodes())));
        assert_eq!(seen.last(), Some(&(vec![11], 3)), "host {host}");
    }
}

#[test]
fn two_readings_that_both_matter() {
    let keeps = |name: &str| mistaken_outcome(&input(name), SMALL, by_name("keeps-one").unwrap()).answer;
    assert_eq!((keeps("hosts/two/chassis.txt"), keeps("hosts/two/host.txt")), (1, 0));
}

#[test]
fn broken_conditions() {
    let found = |name: &str| broken(&sheet::read(&apart(&input(name)).0).unwrap().table);
    assert_eq!(found("tables/short-set.txt"), [(4, 1), (4, 5)]);
    assert_eq!(found("tables/merged-states.txt"), [(5, 4), (5, 9)]);
    assert_eq!(found("tables/conflict.txt"), [(7, 3)]);
}

/// What a judge would say that did not check its table: a piece is stopped, and a placeholder as a chassis's number passes.
#[test]
fn unchecked_tables() {
    let judged = |name: &str, tail: &[u16]| {
        let table = sheet::read(&apart(&input(name)).0).unwrap().table;
        let told = Machine::of(&table).run::<Trees>(tail, &mut |_| ());
        (told.answer, told.value)
    };
    let (behind_a_board, chassis) = ([5, 1], [1, 2, 6, 7, 5, 6, 8]);
    assert_eq!(judged("hosts/whole.txt", &behind_a_board), (0, 2));
    assert_eq!(judged("tables/short-set.txt", &behind_a_board), (1, 1));
    assert_eq!(judged("hosts/whole.txt", &chassis), (1, 6));
    assert_eq!(judged("tables/merged-states.txt", &chassis), (0, 7));
}

/// A forest that adds no reading stops no later than the right one, one that loses none no sooner.
#[test]
fn what_a_mistake_can_do() {
    let judged = |machine: &Machine, tail: &[u16], name: &str| by_name(name).unwrap()(machine, tail);
    for number in 0..300 {
        let chance = &mut Chance::of_case(7, number);
        let (_, table) = some_table(chance);
        let machine = Machine::of(&table);
        for _ in 0..8 {
            let tail = tail(&table.grammar, chance, 16);
            let right = machine.run::<Trees>(&tail, &mut |_| ());
            for name in ADD_NONE {
                let wrong = judged(&machine, &tail, name);
                assert!(wrong.value <= right.value && wrong.answer >= right.answer, "{name} {table:?} {tail:?}");
            }
            let shared = judged(&machine, &tail, "shared-past");
            assert!(shared.value >= right.value && shared.answer <= right.answer, "{table:?} {tail:?}");
        }
    }
}
