//! Sheets changed by hand: lines of a text replaced, put in or taken out, and the numbers of any lines.

/// A sheet with some lines replaced. Each change gives the line's number in the old sheet, the old line, so that a slip shows, and
/// what stands there instead: lines with ` / ` between them, or nothing.
pub fn edit(sheet: &str, changes: &[(usize, &str, &str)]) -> String {
    let mut lines: Vec<String> = sheet.lines().map(str::to_string).collect();
    for (k, old, new) in changes {
        assert_eq!(lines[*k], *old, "line {k}");
        lines[*k] = new.replace(" / ", "\n");
    }
    lines.iter().filter(|line| !line.is_empty()).map(|line| format!("{line}\n")).collect()
}

/// The numbers of a text's lines, each line's behind their count, whether they fit or not.
pub fn raw(sheet: &str) -> Vec<u16> {
    let numbers = |line: &str| -> Vec<u16> {
        let value = line.split_once('=').expect("a key").1;
        value.split_whitespace().map(|word| word.parse().expect("a number")).collect()
    };
    sheet.lines().map(numbers).flat_map(|line| [vec![line.len() as u16], line].concat()).collect()
}
