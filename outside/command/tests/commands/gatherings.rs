//! Solutions that differ on named variables: what is printed, statuses, and what is refused.

use crate::at::{text, At};

/// x + y = 20 and x < y, with 5 bits: 10 solutions with x from 0 to 9, and x = 21 to 25 with y = 31 to 27 by the way around.
const SUM: &str = "x = var 5\ny = var 5\nsum = add x y\ntwenty = const 5 20\nok = eq sum twenty\nless = below x y\nroot ok less\n";

fn folder(name: &str) -> At {
    let at = At::new(name);
    at.write("sum.txt", SUM);
    at.prints("build sum.txt sum.tbv --names names.txt", "");
    at
}

/// Every kept line solves the problem, and no two have the same x.
#[test]
fn kept_solutions_differ_and_are_solutions() {
    let at = folder("kept");
    let printed = at.printed("gather sum.tbv --names names.txt --name x --name y");
    let lines: Vec<&str> = printed.lines().collect();
    let rows = lines[1..lines.len() - 2].iter().map(|line| line.split_whitespace());
    let rows: Vec<Vec<u64>> = rows.map(|row| row.map(|cell| cell.parse().unwrap()).collect()).collect();
    assert_eq!(lines[0].split_whitespace().collect::<Vec<_>>(), ["x", "y"]);
    assert!(rows.iter().all(|row| (row[0] + row[1]) % 32 == 20 && row[0] < row[1]), "{printed}");
    let mut found: Vec<u64> = rows.iter().map(|row| row[0]).collect();
    found.sort();
    found.dedup();
    assert_eq!((found.len(), found.len() > 5), (rows.len(), true), "{printed}");
    let counts: Vec<&str> = lines[lines.len() - 2].split(' ').collect();
    let repeats: usize = counts[3].parse().unwrap();
    assert_eq!([counts[0], counts[2], counts[4], counts[5]], ["kept", "repeats", "unkept", "0"]);
    let models = format!("starts 256 model {} spent", rows.len() + repeats);
    assert!(lines[lines.len() - 1].starts_with(&models), "{printed}");
    at.prints("gather sum.tbv --name 0 --name 1", &as_bytes_call_them(&printed));
    at.prints("gather sum.txt --name x --name y", &printed);
    at.prints("gather sum.txt --name 0 --name y --jobs 3", &printed);
}

/// The same table where variables have no names: n and the id.
fn as_bytes_call_them(table: &str) -> String {
    let Some((head, rest)) = table.split_once('\n') else { panic!("{table}") };
    format!("{}\n{rest}", head.replace(" x", "n0").replace(" y", "n1"))
}

#[test]
fn the_worked_example_has_two() {
    let at = At::example("two-kept");
    let printed = at.printed("gather problem.tbv --name 0 --starts 40 --seed 2");
    let mut rows: Vec<&str> = printed.lines().skip(1).take(2).map(str::trim).collect();
    rows.sort();
    assert_eq!(rows, ["11", "3"], "{printed}");
    assert!(printed
        .ends_with("kept 2 repeats 38 unkept 0\nstarts 40 model 40 spent 0 ended 0 closed 0 refused 0\n"));
    assert_eq!(at.printed("gather problem.tbv --name 0 --starts 40 --seed 2 --all"), printed);
}

/// More different models than there is room for.
#[test]
fn no_more_than_sixty_four_are_kept() {
    let at = At::new("sixty-four");
    at.write("wide.txt", "x = var 32\nz = const 32 0\nok = below z x\nroot ok\n");
    at.prints("build wide.txt wide.tbv", "");
    let printed = at.printed("gather wide.tbv --name 0");
    assert!(printed.contains("\nkept 64 repeats 0 unkept 192\nstarts 256 model 256 "), "{printed}");
    assert_eq!(printed.lines().count(), 1 + 64 + 2);
}

#[test]
fn nothing_kept_has_a_status_of_its_own() {
    let at = At::example("none-kept");
    let printed = "n0\nkept 0 repeats 0 unkept 0\nstarts 0 model 0 spent 0 ended 0 closed 0 refused 0\n";
    let output = at.run("gather problem.tbv --name 0 --starts 0 --vcd new.vcd --readmemh new.hex");
    assert_eq!((output.status.code(), text(&output.stdout).as_str()), (Some(3), printed));
    assert!(output.stderr.is_empty());
    at.write(
        "odd.txt",
        "x = var 4\nsix = const 4 6\np = mul x six\none = const 4 1\nok = eq p one\nroot ok\n",
    );
    let output = at.run("gather odd.txt --name x --starts 3 --budget 9 --vcd new.vcd --readmemh new.hex");
    let printed = "x\nkept 0 repeats 0 unkept 0\nstarts 3 model 0 spent 3 ended 0 closed 0 refused 0\n";
    assert_eq!((output.status.code(), text(&output.stdout).as_str()), (Some(3), printed));
    at.write("zero.txt", "x = var 4\nno = const 1 0\nroot no\n");
    let output = at.run("gather zero.txt --name x --starts 2 --json");
    let printed = "{\"kept\": 0, \"repeats\": 0, \"unkept\": 0, \"starts\": 2, \"model\": 0, \"spent\": 0, \"ended\": 0, \
        \"closed\": 2, \"refused\": 0, \"variables\": [{\"name\": \"x\", \"id\": 0, \"width\": 4}], \"solutions\": []}\n";
    assert_eq!((output.status.code(), text(&output.stdout).as_str()), (Some(3), printed));
    assert!(!at.path("new.vcd").exists() && !at.path("new.hex").exists());
}

/// The table, the object, the waveform and the bench's words have the same values, in the same order.
#[test]
fn all_forms_have_the_same_values() {
    let at = folder("forms");
    let line = "gather sum.txt --name y --name x --starts 9 --vcd kept.vcd --readmemh kept.hex";
    let table = at.printed(line);
    let (vcd, words) = (text(&at.read("kept.vcd")), text(&at.read("kept.hex")));
    let rows: Vec<Vec<u64>> = table
        .lines()
        .skip(1)
        .take_while(|line| !line.starts_with("kept"))
        .map(|line| line.split_whitespace().map(|cell| cell.parse().unwrap()).collect())
        .collect();
    assert!(rows.len() > 2, "{table}");
    let hex: String = rows.iter().map(|row| format!("{:03x}\n", row[0] << 5 | row[1])).collect();
    assert_eq!(words, format!("// {{y[5], x[5]}}: 10 bits\n{hex}"));
    let times =
        rows.iter().enumerate().map(|(time, row)| format!("#{time}\nb{:b} !\nb{:b} \"\n", row[0], row[1]));
    let head = "$comment a kept solution at each time $end\n$timescale 1 ns $end\n$scope module kept $end\n\
        $var wire 5 ! y $end\n$var wire 5 \" x $end\n$upscope $end\n$enddefinitions $end\n";
    assert_eq!(vcd, format!("{head}{}#{}\n", times.collect::<String>(), rows.len()));
    let lists: Vec<String> = rows.iter().map(|row| format!("[{}, {}]", row[0], row[1])).collect();
    let object = at.printed(&format!("{line} --json"));
    assert!(object.ends_with(&format!("\"solutions\": [{}]}}\n", lists.join(", "))), "{object}");
    assert!(object.contains("\"variables\": [{\"name\": \"y\", \"id\": 1, \"width\": 5}, "), "{object}");
    assert!(at.printed("gather sum.txt --name y --all --starts 9").starts_with(" x   y\n"));
    at.prints("gather sum.txt --name y --name x --starts 9 --readmemh -", &words);
    at.prints("gather sum.txt --name y --name x --starts 9 --vcd -", &vcd);
    at.fails("gather sum.txt --name y --json --vcd -", "-: named for two things at once");
    for option in ["--vcd sum.txt", "--readmemh sum.txt", "--vcd same --readmemh same"] {
        let name = option.split(' ').next_back().unwrap();
        assert!(at.run(&format!("gather sum.txt --name x {option}")).stdout.is_empty(), "{option}");
        at.fails(
            &format!("gather sum.txt --name x {option}"),
            &format!("{name}: named for two things at once"),
        );
    }
}

/// BTOR2's inputs go by their symbols, or by their lines' ids.
#[test]
fn inputs_of_btor2_are_named() {
    let at = At::new("gather-btor2");
    let sum = "1 sort bitvec 8\n2 input 1 a;b\n3 input 1\n4 add 1 2 3\n5 consth 1 c8\n6 sort bitvec 1\n\
        7 eq 6 4 5\n8 ult 6 2 3\n9 constraint 7\n10 constraint 8\n";
    at.write("sum.btor2", sum);
    let by_symbol = at.printed("gather sum.btor2 --name a;b --name 3 --starts 9");
    at.prints("gather sum.btor2 --name 2 --name 3 --starts 9", &by_symbol);
    let rows = by_symbol.lines().skip(1).take_while(|line| !line.starts_with("kept"));
    let sums = rows.map(|line| line.split_whitespace().map(|cell| cell.parse::<u64>().unwrap()).sum::<u64>());
    assert!(sums.collect::<Vec<_>>().iter().all(|sum| sum % 256 == 200), "{by_symbol}");
    for name in ["0", "1", "4", "c"] {
        at.fails(
            &format!("gather sum.btor2 --name {name}"),
            &format!("--name: no variable has the name or the id '{name}'"),
        );
    }
    at.write("bad.btor2", sum.replace("ult", "ugt"));
    at.fails(
        "gather bad.btor2 --name 2",
        "bad.btor2:8: refused 2: 'ugt' is not among the keywords that are taken",
    );
}

/// A seed gathers the same whatever the threads, another one something else; the time ends it.
#[test]
fn seeds_threads_and_time() {
    let at = folder("gather-seeds");
    let line = |more: &str| at.printed(&format!("gather sum.txt --name x --starts 20 {more}"));
    let one = line("--jobs 1 --time 0");
    assert_eq!(line("--jobs 5 --time 0"), one);
    assert_ne!(line("--seed 2 --time 0"), one);
    let late = at.run("gather sum.txt --name x --time 0.000001");
    assert!(matches!(late.status.code(), Some(0 | 3)));
    assert!(text(&late.stdout).contains("\nstarts 256 model "));
}

#[test]
fn names_that_are_none() {
    let at = folder("no-names");
    let no_variable = "--name: refused 24 at 0: a name that is no variable, or is given twice";
    for line in ["--name 2", "--name 99", "--name 0 --name 1 --name 0", "--name 0 --name n0"] {
        at.fails(&format!("gather sum.tbv {line}"), no_variable);
    }
    let nine: String = (0..9).map(|_| " --name 0").collect();
    at.fails(&format!("gather sum.tbv{nine}"), "--name: refused 23 at 0: no name, or more than 8");
    for name in ["x", "+1", "70000"] {
        at.fails(
            &format!("gather sum.tbv --name {name}"),
            &format!("--name: no variable has the name or the id '{name}'"),
        );
    }
    at.fails("gather sum.txt --name sum", "--name: no variable has the name or the id 'sum'");
    at.write("one.txt", "x\n");
    at.fails("gather sum.tbv --names one.txt --name x", "one.txt: 1 names for 2 variables");
    at.fails("gather sum.tbv --names none --name x", "none: No such file or directory (os error 2)");
    at.fails("gather none --name 0", "none: No such file or directory (os error 2)");
    at.misunderstood("gather sum.tbv", &["--name <X>"]);
    at.misunderstood("gather sum.tbv --name 0 --starts 257", &["257", "0..=256"]);
    at.misunderstood("gather sum.tbv --name 0 --time=-1", &["not a number of seconds"]);
}
