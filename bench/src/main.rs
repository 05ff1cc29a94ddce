//! bench [--write FOLDER]: times of this library and of the Rust original on the same inputs, in one process, best of several after one to warm up, as
//! ratios to the original. Outputs are lent as they are, not cleared. Every call of this library judges its input first; the original's values are valid
//! by construction. With --write the table and a plot go to FOLDER as BENCHMARK.md and benchmark.svg.
mod press;
mod rows;
mod show;

fn main() {
    let folder = match std::env::args().skip(1).collect::<Vec<_>>().as_slice() {
        [] => None,
        [flag, folder] if flag == "--write" => Some(folder.clone()),
        _ => {
            eprintln!("usage: bench [--write FOLDER]");
            std::process::exit(2);
        }
    };
    let rows = rows::all();
    print!("{}", show::table(&rows));
    if let Some(folder) = folder {
        let write = |name: &str, text: String| std::fs::write(format!("{folder}/{name}"), text).expect("the folder takes files");
        write("BENCHMARK.md", show::page(&rows, &std::env::var("KIT").unwrap_or_default()));
        write("benchmark.svg", show::plot(&rows));
    }
}
