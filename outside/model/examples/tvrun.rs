//! What the model prints in `tvrun`'s place, for the three files in the folder it is run in.

fn main() {
    let [problem, start, tape] =
        ["problem.tbv", "start.bin", "tape.bin"].map(|name| std::fs::read(name).unwrap_or_default());
    print!("{}", model::files::printed(&problem, &start, &tape));
}
