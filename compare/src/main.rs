//! The commands.
use compare::boxed::{fast_outcome, mistaken_outcome, outcome, Sizes, SMALL};
use compare::cases::{case, Story, STORIES};
use compare::feed::Program;
use compare::grammars::{large, named, shown};
use compare::make::{make, Sort};
use compare::options::Options;
use compare::pairs::{pairs, Pair};
use compare::run::Comparison;
use compare::selfcheck::selfcheck;
use compare::traps;
use compare::vectors;
use std::io::{Read, Write};
use std::path::PathBuf;
use std::process::ExitCode;
use std::time::Duration;

/// How the commands are called.
const USAGE: &str = "\
compare self [--cases N] [--seed S]
compare run --program PATH [--cases N] [--seed S] [--story good|mutated|damaged|bytes|sharp] [--through COMMAND] [--words WORDS]
            [--keep FOLDER] [SIZES]
compare box [--fast | --mistake keeps-lower|keeps-one|highest|exact|shared-past] [SIZES]
compare input --seed S --case K [--story ..] [SIZES]
compare sheet GRAMMAR slr|lalr|canonical
compare vectors table|large [--expected | --names]
compare vectors forests [--expected]
SIZES: [--bytes N] [--numbers N] [--tokens N] [--room N], the small box's if not given
";

/// The stack of the thread that works: trees are as deep as tails are long.
const STACK: usize = 1 << 28;

/// The sizes of a program.
fn sizes(options: &Options) -> Result<Sizes, String> {
    Ok(Sizes {
        bytes: options.number("bytes", SMALL.bytes)?,
        numbers: options.number("numbers", SMALL.numbers)?,
        tokens: options.number("tokens", SMALL.tokens)?,
        room: options.number("room", SMALL.room)?,
    })
}

/// The story that is asked for.
fn story(options: &Options) -> Result<Option<Story>, String> {
    let Some(name) = options.text("story") else { return Ok(None) };
    let found = STORIES.iter().find(|(known, _)| *known == name);
    found.map(|(_, story)| Some(*story)).ok_or_else(|| format!("no story is called {name}"))
}

/// Writes to standard output; whoever reads may have gone.
fn put(bytes: &[u8]) {
    let _ = std::io::stdout().write_all(bytes);
}

/// Compares a program with this one.
fn run(options: &Options) -> Result<bool, String> {
    options.only(&["program", "cases", "seed", "story", "through", "words", "keep", "bytes", "numbers", "tokens", "room"])?;
    let words = options.text("words").unwrap_or("").split_whitespace().map(str::to_string);
    let program = Program {
        path: PathBuf::from(options.text("program").ok_or("--program PATH is missing")?),
        through: options.text("through").map(PathBuf::from),
        words: words.collect(),
        patience: Duration::from_secs(20),
    };
    let comparison = Comparison {
        program,
        sizes: sizes(options)?,
        cases: options.number("cases", 3_000)?,
        seed: options.number("seed", 1)?,
        story: story(options)?,
        keep: PathBuf::from(options.text("keep").unwrap_or("differences")),
    };
    comparison.run().map_err(|error| format!("{}: {error}", comparison.program.path.display()))
}

/// Acts as the judging program.
fn act(options: &Options) -> Result<bool, String> {
    options.only(&["fast", "mistake", "bytes", "numbers", "tokens", "room"])?;
    let sizes = sizes(options)?;
    let mistaken = options.text("mistake").map(|name| traps::by_name(name).ok_or(format!("no mistake is called {name}")));
    let mistaken = mistaken.transpose()?;
    let mut input = Vec::new();
    std::io::stdin().read_to_end(&mut input).map_err(|error| error.to_string())?;
    let told = match mistaken {
        Some(mistaken) => mistaken_outcome(&input, sizes, mistaken),
        None if options.has("fast") => fast_outcome(&input, sizes),
        None => outcome(&input, sizes),
    };
    put(told.to_string().as_bytes());
    Ok(true)
}

/// Prints the input of a case.
fn input(options: &Options) -> Result<bool, String> {
    options.only(&["seed", "case", "story", "bytes", "numbers", "tokens", "room"])?;
    let (seed, number) = (options.number("seed", 1)?, options.number("case", 0)?);
    put(&case(seed, number, story(options)?, sizes(options)?).input);
    Ok(true)
}

/// Prints the made sheet of a grammar by name.
fn sheet(options: &Options) -> Result<bool, String> {
    let name = options.word(0).unwrap_or("");
    let sort = match options.word(1) {
        Some("slr") => Sort::Slr,
        Some("lalr") => Sort::Lalr,
        Some("canonical") => Sort::Canonical,
        _ => return Err("slr, lalr or canonical is missing".to_string()),
    };
    let named = [named(), shown(), large()].concat();
    let found = named.iter().find(|(known, _)| *known == name);
    let names: Vec<&str> = named.iter().map(|(known, _)| *known).collect();
    let (_, grammar) = found.ok_or_else(|| format!("the grammars are {}", names.join(", ")))?;
    put(&make(grammar, sort).ok_or("beyond the ranges")?.sheet());
    Ok(true)
}

/// Prints vectors.
fn vectors(options: &Options) -> Result<bool, String> {
    options.only(&["expected", "names"])?;
    let vectors = match options.word(0) {
        Some("table") => vectors::table(),
        Some("large") => vectors::large(),
        _ => return Err("there are vectors called table, large and forests".to_string()),
    };
    let text = match (options.has("expected"), options.has("names")) {
        (true, _) => vectors::expected(&vectors),
        (_, true) => vectors::names(&vectors),
        _ => vectors::text(&vectors),
    };
    put(text.as_bytes());
    Ok(true)
}

/// Prints pairs of forests, or the lines that are to be printed for them.
fn forests(options: &Options) -> Result<bool, String> {
    options.only(&["expected"])?;
    let line = if options.has("expected") { Pair::expected } else { Pair::text };
    put(pairs().iter().map(line).collect::<String>().as_bytes());
    Ok(true)
}

/// Does what the words ask for. Says whether all is well.
fn command(words: &[String]) -> Result<bool, String> {
    let (name, rest) = words.split_first().ok_or("a command is missing")?;
    let options = Options::of(rest, &["expected", "fast", "names"])?;
    match name.as_str() {
        "self" => {
            options.only(&["cases", "seed"])?;
            Ok(selfcheck(options.number("cases", 1_000)?, options.number("seed", 1)?))
        }
        "run" => run(&options),
        "box" => act(&options),
        "input" => input(&options),
        "sheet" => sheet(&options),
        "vectors" if options.word(0) == Some("forests") => forests(&options),
        "vectors" => vectors(&options),
        other => Err(format!("no command is called {other}")),
    }
}

fn main() -> ExitCode {
    let words: Vec<String> = std::env::args().skip(1).collect();
    let work = std::thread::Builder::new().stack_size(STACK).spawn(move || command(&words));
    match work.expect("a thread").join().expect("no panic") {
        Ok(true) => ExitCode::SUCCESS,
        Ok(false) => ExitCode::FAILURE,
        Err(fault) => {
            eprint!("compare: {fault}\n{USAGE}");
            ExitCode::from(2)
        }
    }
}
