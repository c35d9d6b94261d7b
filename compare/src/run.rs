//! The comparison: a built program beside this one, on stated inputs, on inputs at the edge, and on inputs by chance.
use crate::boxed::{outcome, Sizes};
use crate::cases::{case, Story};
use crate::extremes::extremes;
use crate::feed::{Deed, Program};
use crate::marked;
use crate::tally::Tally;
use crate::vectors;
use std::path::PathBuf;

/// What is to be compared.
pub struct Comparison {
    pub program: Program,
    pub sizes: Sizes,
    pub cases: u64,
    pub seed: u64,
    /// Only inputs of this story, and none of the stated ones.
    pub story: Option<Story>,
    /// Where inputs are kept on which the two differ.
    pub keep: PathBuf,
}

impl Comparison {
    /// Compares. Says whether no difference was found; fails if the program cannot be started.
    pub fn run(&self) -> std::io::Result<bool> {
        let mut tally = Tally::default();
        if self.story.is_none() {
            let stated = marked::all().into_iter().map(|case| (case.name, case.input));
            let sheets = vectors::table().into_iter().filter_map(|v| Some((v.name, [v.sheet?, b"tail=\n".to_vec()].concat())));
            let edge = extremes(self.sizes).into_iter().enumerate().map(|(k, input)| (format!("at the edge {k}"), input));
            for (name, input) in stated.chain(sheets).chain(edge) {
                self.one(&name, "stated and at the edge", &input, &mut tally)?;
            }
        }
        for number in 0..self.cases {
            let case = case(self.seed, number, self.story, self.sizes);
            let name = format!("seed {} case {number}", self.seed);
            self.one(&name, &format!("{:?}", case.story), &case.input, &mut tally)?;
            tally.progress(number + 1, self.cases);
        }
        Ok(tally.end())
    }

    /// Compares on one input.
    fn one(&self, name: &str, sort: &str, input: &[u8], tally: &mut Tally) -> std::io::Result<()> {
        let told = outcome(input, self.sizes);
        let deed = self.program.feed(input)?;
        if deed == Deed::Late {
            return Err(std::io::Error::other(format!("did not end within {} s on {name}", self.program.patience.as_secs())));
        }
        tally.saw(&format!("{sort}, answer {}", told.answer));
        if deed == Deed::Printed(told.to_string().into_bytes()) {
            tally.expect(true, "", String::new);
            return Ok(());
        }
        std::fs::create_dir_all(&self.keep)?;
        let file = self.keep.join(format!("{}.txt", name.replace(|c: char| !c.is_ascii_alphanumeric(), "-")));
        std::fs::write(&file, input)?;
        let did = match deed {
            Deed::Printed(printed) => String::from_utf8_lossy(&printed).trim_end().replace('\n', " "),
            other => format!("{other:?}"),
        };
        let due = told.to_string().trim_end().replace('\n', " ");
        tally.expect(false, "a difference", || format!("{name}\n  due: {due}\n  did: {did}\n  input: {}", file.display()));
        Ok(())
    }
}
