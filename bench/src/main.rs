// Measures the proved search against a plain scan, proved Sweep against the reference's sweep, and proved Windows against
// a proved Sweep at every valuation and against PPL; how Windows' time grows, and how much memory is needed. Or, with
// --compare, two builds of Windows and Sweep against each other, and with --compare-search two builds of the search.
mod asked;
mod compare;
mod compare_search;
mod cuts;
mod drawn;
mod families;
mod growth;
mod library;
mod memory;
mod plot;
mod ppl;
mod search;
mod searches;
mod sheets;
mod sweep;
mod system;
mod table;
mod timing;
mod windows;

fn main() {
    let words: Vec<String> = std::env::args().skip(1).collect();
    let words: Vec<&str> = words.iter().map(String::as_str).collect();
    let has = |wanted: &str| words.contains(&wanted);
    let after = |wanted: &str| words.iter().skip_while(|&&word| word != wanted).nth(1).copied();
    let quick = has("--quick");
    if let ["--compare", old, new, ..] = words[..] {
        compare::run([old, new], quick);
        return;
    }
    if let ["--compare-search", old, new, ..] = words[..] {
        compare_search::run([old, new], quick);
        return;
    }
    let all = !["--search", "--sweep", "--windows", "--ppl", "--growth", "--memory"].into_iter().any(has);
    if all || has("--search") {
        search::run(quick);
        println!();
    }
    if all || has("--sweep") {
        sweep::run(quick);
        println!();
    }
    if all || has("--windows") {
        windows::run(quick);
        println!();
    }
    if all || has("--windows") || has("--ppl") {
        ppl::run(after("--peer"), quick);
        println!();
    }
    if has("--growth") {
        growth::run(quick);
        println!();
    }
    if all || has("--memory") {
        memory::run();
        println!();
    }
    println!("All answers agree.");
}
