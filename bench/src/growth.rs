// Windows' time against the length of the route and against the number of pieces: two tables, a plot of them, and the plot
// in words.
use crate::plot::{self, grouped, Line, Plot};
use crate::table::Table;
use crate::timing::{at_depth, round, time};
use crate::windows::windows;
use reference::samples::{along, at_most, range};
use reference::sheet::{Guard, Sheet, MOST_LOCATIONS};
use reference::writer::file;

// The numbers of lines whose pairs are the pieces: late ones and early ones (see `sheet`).
const PAIRS: [(i16, i16); 11] = [(1, 1), (2, 1), (2, 2), (3, 2), (4, 2), (4, 3), (4, 4), (4, 5), (4, 6), (7, 4), (5, 6)];
const MOVES: [usize; 17] = [1, 2, 4, 6, 8, 10, 12, 14, 16, 18, 20, 22, 24, 26, 28, 30, 32];
// The pieces of the lines of the first plot, and the moves of those of the second. Each line has a middle.
const PIECES_SHOWN: [i64; 4] = [1, 4, 16, 30];
const MOVES_SHOWN: [usize; 3] = [8, 16, 32];
const MIDDLE: f64 = 16.0;

// A sheet whose pieces are as many as the pairs of a late and an early line. The first stay ends at the least of so many
// early lines in q, and the first move is made at the greatest of so many late lines in p, 0 being one. No test on the rest
// of the route parts a piece: the first clock is not reset and has no other limits, and those of the other clocks, three
// at each place, rest on p + q + r or on nothing.
fn sheet((late, early): (i16, i16), moves: usize) -> Sheet {
    let sum = |k: i16| k * (k + 1) / 2;
    let mut stays: Vec<Vec<Guard>> = Vec::new();
    stays.push((0..early).map(|k| at_most(1, 0, 500 + 9 * sum(k), [0, -k, 0, 0])).collect());
    for _ in 1..MOST_LOCATIONS {
        stays.push((2..=4).map(|clock| at_most(clock, 0, 900 - 10 * clock as i16, [1, 1, 1, 0])).collect());
    }
    let mut steps = vec![(0b1110, (1..late).map(|k| at_most(0, 1, 8 * sum(k), [-k, 0, 0, 0])).collect())];
    for number in 1..moves {
        let guards = (2..=4).map(|clock| at_most(0, clock, -2, [0; 4])).collect();
        steps.push(([0b0010, 0b0100, 0b1000][number % 3], guards));
    }
    let mut path = vec![0];
    path.extend((0..moves).map(|k| (1 + k % (MOST_LOCATIONS - 1)) as u8));
    along(&[range(0, 63); 3], 4, &stays, &path, &steps)
}

// One call: the moves, the pieces, the file, and the least time so far in microseconds.
struct Point {
    moves: usize,
    pieces: i64,
    file: Vec<u8>,
    least: f64,
}

// All points of the two plots. Ends the run if Windows lists other pieces.
fn points() -> Vec<Point> {
    let mut all = Vec::new();
    for pair in PAIRS {
        for moves in MOVES {
            let pieces = (pair.0 * pair.1) as i64;
            let file = file(&sheet(pair, moves));
            if windows(&file) != pieces {
                println!("{} pieces in place of {pieces}, with {moves} moves: {file:?}", windows(&file));
                std::process::exit(1);
            }
            if PIECES_SHOWN.contains(&pieces) || MOVES_SHOWN.contains(&moves) {
                let least = time(1, || windows(&file));
                all.push(Point { moves, pieces, file, least });
            }
        }
    }
    all
}

// The points of one line that some points make up, in order.
fn line(all: &[Point], label: String, on: impl Fn(&Point) -> bool, x: fn(&Point) -> f64) -> Line {
    Line { label, points: all.iter().filter(|p| on(p)).map(|p| (x(p), p.least)).collect() }
}

// The two plots.
fn plots(all: &[Point]) -> [Plot; 2] {
    let by_pieces = |n: i64| {
        let label = format!("{n} piece{}", if n == 1 { "" } else { "s" });
        line(all, label, |p| p.pieces == n, |p| p.moves as f64)
    };
    let by_moves = |n: usize| line(all, format!("{n} moves"), |p| p.moves == n, |p| p.pieces as f64);
    [
        Plot { title: "Time against moves".to_string(), across: "moves of the route", lines: PIECES_SHOWN.map(by_pieces).into() },
        Plot { title: "Time against pieces".to_string(), across: "pieces", lines: MOVES_SHOWN.map(by_moves).into() },
    ]
}

// The first, the middle and the last point of a line.
fn three(line: &Line) -> [(f64, f64); 3] {
    let middle = line.points.iter().find(|p| p.0 == MIDDLE).expect("a line has its middle");
    [line.points[0], *middle, line.points[line.points.len() - 1]]
}

// What one more move or piece costs up to the middle of a line, and behind it.
fn slopes(line: &Line) -> [f64; 2] {
    let slope = |a: (f64, f64), b: (f64, f64)| (b.1 - a.1) / (b.0 - a.0);
    let [first, middle, last] = three(line);
    [slope(first, middle), slope(middle, last)]
}

// How many times what it cost before one more costs behind the middle: the least and the most of a plot's lines.
fn bends(plot: &Plot) -> (f64, f64) {
    let bend = |line: &Line| slopes(line)[1] / slopes(line)[0];
    let all: Vec<f64> = plot.lines.iter().map(bend).collect();
    (all.iter().copied().fold(f64::INFINITY, f64::min), all.iter().copied().fold(0.0, f64::max))
}

// Prints the table of a plot; `one` is what there is one more of.
fn print(plot: &Plot, one: &str) {
    let [low, middle, high] = three(&plot.lines[0]).map(|p| p.0);
    let ends = [low, middle, high].map(|x| format!("at {x}, µs"));
    let parts = [format!("µs a {one}, {low} to {middle}"), format!("{middle} to {high}")];
    let [a, b, c] = ends.each_ref().map(String::as_str);
    let mut table = Table::new(&[&plot.title, a, b, c, &parts[0], &parts[1], "ratio"]);
    for line in &plot.lines {
        let [before, behind] = slopes(line);
        let mut cells = vec![line.label.clone()];
        cells.extend(three(line).map(|p| format!("{:.0}", p.1)));
        cells.extend([format!("{before:.1}"), format!("{behind:.1}"), format!("{:.2}", behind / before)]);
        table.push(cells);
    }
    table.print();
}

// The words for the lines of a plot: each with its time at the right end.
fn ends(plot: &Plot) -> String {
    let words: Vec<String> = plot.lines.iter().map(|line| format!("{} {}", line.label, grouped(three(line)[2].1))).collect();
    words.join(", ")
}

// What the picture shows, in words.
fn described([moves, pieces]: &[Plot; 2]) -> String {
    let (least, most) = bends(moves);
    let (least_by_piece, most_by_piece) = bends(pieces);
    format!(
        "\
What docs/growth.svg shows: the time of one call of Windows, in microseconds, on sheets that differ in their moves and pieces
alone. They have three allowances of 64 values and four watches. The first stay and the first move part the ranges into all the
pieces; each further move has three limits, and each stage three standing limits, which part nothing.

On the left the moves of the route run to the right, 1 to 32, and the time runs up. Each line is for one number of pieces, and
this is its time at 32 moves: {}.
From 16 to 32 moves a move costs {least:.2} to {most:.2} times what it costs from 1 to 16; 1 is a straight line.

On the right the pieces run to the right, 1 to 30. Each line is for one length of the route, and this is its time at 30 pieces:
{}.
From 16 to 30 pieces a piece costs {least_by_piece:.2} to {most_by_piece:.2} times what it costs from 1 to 16.

The picture and this text are made with
    bench/run --growth
",
        ends(moves),
        ends(pieces)
    )
}

// Writes a file, or ends the run.
fn write(path: &str, text: &str) {
    if let Err(error) = std::fs::write(path, text) {
        println!("{path}: {error}");
        std::process::exit(1);
    }
}

// The least times over some passes through all points, the tables, and the picture with its description: in docs/, or with
// fewer passes in target/.
pub fn run(quick: bool) {
    let (passes, folder) = if quick { (1, "target") } else { (8, "docs") };
    let mut all = points();
    for number in 0..passes {
        at_depth(number, &mut || all.iter_mut().for_each(|point| round(&mut point.least, 500.0, || windows(&point.file))));
    }
    let plots = plots(&all);
    print(&plots[0], "move");
    println!();
    print(&plots[1], "piece");
    write(&format!("{folder}/growth.svg"), &plot::svg("One call of Windows", &plots));
    write(&format!("{folder}/growth.svg.txt"), &described(&plots));
    println!("\n{folder}/growth.svg and {folder}/growth.svg.txt are written.");
}
