//! Kept solutions in the forms that they are printed and written in: a table, JSON, a waveform and words for a Verilog bench.
//! All have the same variables in the same order.

use crate::commands::batch::{counted, counts};
use crate::found::quoted;
use std::fmt::Write;
use walumpeh::Gathered;

/// A variable that is shown.
#[derive(Clone, Copy)]
pub struct Column<'a> {
    pub name: &'a str,
    pub id: usize,
    pub width: u32,
}

/// What is kept: a row of all nodes' values for each solution, in the order of arrival.
pub struct Kept<'a> {
    pub columns: Vec<Column<'a>>,
    pub rows: Vec<&'a [u64]>,
    pub gathered: &'a Gathered,
}

impl Kept<'_> {
    /// Names and values in columns, each as wide as its widest entry, and the counts.
    pub fn table(&self) -> String {
        let head = self.columns.iter().map(|column| column.name.to_string()).collect();
        let line = |row: &&[u64]| self.values(row).map(|value| value.to_string()).collect();
        let lines: Vec<Vec<String>> = std::iter::once(head).chain(self.rows.iter().map(line)).collect();
        let width = |at: usize| lines.iter().map(|line| line[at].chars().count()).max().unwrap_or(0);
        let widths: Vec<usize> = (0..self.columns.len()).map(width).collect();
        let shown = |line: &Vec<String>| {
            let cells: Vec<String> =
                line.iter().zip(&widths).map(|(cell, width)| format!("{cell:>width$}")).collect();
            cells.join("  ") + "\n"
        };
        let Gathered { kept, repeats, unkept, answers } = self.gathered;
        let counts = format!("kept {kept} repeats {repeats} unkept {unkept}\n");
        lines.iter().map(shown).collect::<String>() + &counts + &counted(answers)
    }

    /// One object: the counts, the variables, and for each solution a list of their values.
    pub fn json(&self) -> String {
        let Gathered { kept, repeats, unkept, answers } = self.gathered;
        let mut text = format!("{{\"kept\": {kept}, \"repeats\": {repeats}, \"unkept\": {unkept}");
        for (name, count) in counts(answers) {
            write!(text, ", \"{name}\": {count}").expect("text takes all");
        }
        let variable = |&Column { name, id, width }: &Column| {
            format!("{{\"name\": {}, \"id\": {id}, \"width\": {width}}}", quoted(name))
        };
        let variables: Vec<String> = self.columns.iter().map(variable).collect();
        let list = |row: &&[u64]| {
            let values: Vec<String> = self.values(row).map(|value| value.to_string()).collect();
            format!("[{}]", values.join(", "))
        };
        let solutions: Vec<String> = self.rows.iter().map(list).collect();
        text + &format!(
            ", \"variables\": [{}], \"solutions\": [{}]}}\n",
            variables.join(", "),
            solutions.join(", ")
        )
    }

    /// A waveform (VCD): solution k holds from time k to k + 1.
    pub fn vcd(&self) -> String {
        let mut text = String::from(
            "$comment a kept solution at each time $end\n$timescale 1 ns $end\n$scope module kept $end\n",
        );
        let codes: Vec<String> = (0..self.columns.len()).map(code).collect();
        for (Column { name, width, .. }, code) in self.columns.iter().zip(&codes) {
            writeln!(text, "$var wire {width} {code} {} $end", one_word(name)).expect("text takes all");
        }
        text += "$upscope $end\n$enddefinitions $end\n";
        for (time, row) in self.rows.iter().enumerate() {
            writeln!(text, "#{time}").expect("text takes all");
            for ((column, value), code) in self.columns.iter().zip(self.values(row)).zip(&codes) {
                match column.width {
                    1 => writeln!(text, "{value}{code}"),
                    _ => writeln!(text, "b{value:b} {code}"),
                }
                .expect("text takes all");
            }
        }
        text + &format!("#{}\n", self.rows.len())
    }

    /// What $readmemh loads: a word for each solution, the variables side by side, the first on the left.
    pub fn readmemh(&self) -> String {
        let total: u32 = self.columns.iter().map(|column| column.width).sum();
        let fields: Vec<String> = self
            .columns
            .iter()
            .map(|column| format!("{}[{}]", one_word(column.name), column.width))
            .collect();
        let mut text = format!("// {{{}}}: {total} bits\n", fields.join(", "));
        for row in &self.rows {
            let bits = self.columns.iter().zip(self.values(row)).map(|(column, value)| {
                let width = column.width as usize;
                format!("{value:0width$b}")
            });
            text += &(hexadecimal(&bits.collect::<String>()) + "\n");
        }
        text
    }

    fn values<'a>(&'a self, row: &'a [u64]) -> impl Iterator<Item = u64> + 'a {
        self.columns.iter().map(|column| row[column.id])
    }
}

/// Binary digits as hexadecimal ones.
fn hexadecimal(bits: &str) -> String {
    let bits = "0".repeat(bits.len().wrapping_neg() % 4) + bits;
    let digit = |four: &[u8]| {
        let value = four.iter().fold(0, |value, bit| 2 * value + u32::from(bit - b'0'));
        char::from_digit(value, 16).expect("four bits are a digit")
    };
    bits.as_bytes().chunks(4).map(digit).collect()
}

/// A name in which nothing parts words, or ends the line.
fn one_word(name: &str) -> String {
    name.chars().map(|c| if c.is_whitespace() || c.is_control() { '_' } else { c }).collect()
}

/// The short code of a variable in a waveform: printable characters.
fn code(mut at: usize) -> String {
    let mut code = String::new();
    loop {
        code.push(char::from(b'!' + (at % 94) as u8));
        at /= 94;
        if at == 0 {
            return code;
        }
    }
}

#[cfg(test)]
mod tests {
    use super::*;
    use std::collections::HashSet;

    fn forms(columns: &[(&str, u32)], rows: &[&[u64]]) -> [String; 2] {
        let columns =
            columns.iter().enumerate().map(|(id, &(name, width))| Column { name, id, width }).collect();
        let gathered = Gathered { answers: Vec::new(), kept: rows.len(), repeats: 0, unkept: 0 };
        let kept = Kept { columns, rows: rows.to_vec(), gathered: &gathered };
        [kept.vcd(), kept.readmemh()]
    }

    #[test]
    fn words_side_by_side() {
        let [vcd, words] = forms(&[("a b", 1), ("c", 6), ("d", 64)], &[&[1, 5, u64::MAX], &[0, 63, 1]]);
        // 1 000101 and 64 ones, 71 bits: one 0 in front.
        let first = "4".to_string() + "5" + &"f".repeat(16);
        let second = "3".to_string() + "f" + &"0".repeat(15) + "1";
        assert_eq!(words, format!("// {{a_b[1], c[6], d[64]}}: 71 bits\n{first}\n{second}\n"));
        assert!(vcd.contains("$var wire 1 ! a_b $end\n$var wire 6 \" c $end\n"), "{vcd}");
        assert!(
            vcd.contains("#0\n1!\nb101 \"\n") && vcd.ends_with("#1\n0!\nb111111 \"\nb1 #\n#2\n"),
            "{vcd}"
        );
    }

    #[test]
    fn every_variable_has_a_code_of_its_own() {
        let codes: HashSet<String> = (0..1024).map(code).collect();
        assert_eq!(codes.len(), 1024);
        assert!(codes.iter().all(|code| code.bytes().all(|byte| byte.is_ascii_graphic())));
    }
}
