// Windows, Sweep and the search as functions of shared libraries, loaded while this program runs, so that two builds of
// them, which have the same names, can be called in one run.
use crate::system::{self, Input};
use reference::valuations::Valuation;
use std::ffi::{c_char, c_int, c_void, CString};
use std::hint::black_box;

extern "C" {
    fn dlopen(path: *const c_char, flags: c_int) -> *mut c_void;
    fn dlsym(library: *mut c_void, name: *const c_char) -> *mut c_void;
}

// All symbols are resolved at once, and none is seen by other libraries.
const RTLD_LOCAL: c_int = 0;
const RTLD_NOW: c_int = 2;

type WindowsCount = unsafe extern "C" fn(*const u8, usize) -> i64;
// A build from before the fourth parameter has one number less, and does not see the last one.
type SweepSheet = unsafe extern "C" fn(*const u8, usize, i64, i64, i64, i64) -> i64;

// The two functions of one build.
pub struct Programs {
    windows: WindowsCount,
    sweep: SweepSheet,
}

// A word as C has it.
fn word(text: &str) -> CString {
    CString::new(text).expect("a word of the command line has no zero byte")
}

// The address of a function of a library, which stays loaded, or null.
fn address(path: &str, name: &str) -> *mut c_void {
    let (library, symbol) = (word(path), word(name));
    // Both calls read the words alone and answer null for what is missing; dlsym gets no null.
    unsafe {
        match dlopen(library.as_ptr(), RTLD_NOW | RTLD_LOCAL) {
            null if null.is_null() => null,
            library => dlsym(library, symbol.as_ptr()),
        }
    }
}

// The same. Ends the run if there is none.
pub fn function(path: &str, name: &str) -> *mut c_void {
    let found = address(path, name);
    if found.is_null() {
        println!("no function {name} in {path}");
        std::process::exit(1);
    }
    found
}

impl Programs {
    // Those of windows_c.so and sweep_c.so in a folder.
    pub fn load(folder: &str) -> Programs {
        let windows = function(&format!("{folder}/windows_c.so"), "windows_count");
        let sweep = function(&format!("{folder}/sweep_c.so"), "sweep_sheet");
        // The types are those of the crates' functions and of include/sweep.h.
        unsafe {
            Programs {
                windows: std::mem::transmute::<*mut c_void, WindowsCount>(windows),
                sweep: std::mem::transmute::<*mut c_void, SweepSheet>(sweep),
            }
        }
    }

    // The number of pieces, or minus the refusal's number.
    pub fn windows(&self, file: &[u8]) -> i64 {
        let file = black_box(file);
        // The function reads the slice, and asks nothing of its contents.
        unsafe { (self.windows)(file.as_ptr(), file.len()) }
    }

    // 0 for a run, 1 for none, else the refusal's number.
    pub fn sweep(&self, file: &[u8], v: Valuation) -> i64 {
        let (file, [p, q, r, s]) = black_box((file, v));
        // The function reads the slice, and asks nothing of its contents.
        unsafe { (self.sweep)(file.as_ptr(), file.len(), p, q, r, s) }
    }
}

// The entries with four parameters; those with three lack the last number of the first.
type SearchFirst = unsafe extern "C" fn(*const i16, usize, *const i32, usize, usize) -> i64;
type SearchCount = unsafe extern "C" fn(*const i16, usize, *const i32, usize) -> usize;
type SearchSome = unsafe extern "C" fn(*const i16, usize, *const i16, usize, *const i32, usize) -> bool;

// What a search is asked: the first valuation, how many there are, or whether there is one, with a guess.
#[derive(Clone, Copy)]
pub enum Ask {
    First,
    Count,
    Some,
}

impl Ask {
    // The name of the function that is called.
    pub fn word(self) -> &'static str {
        match self {
            Ask::First => "first",
            Ask::Count => "count",
            Ask::Some => "some",
        }
    }
}

// The functions of one build of the search, and its number of parameters: three or four.
pub struct Search {
    pub parameters: usize,
    first: SearchFirst,
    count: SearchCount,
    some: Option<SearchSome>,
}

impl Search {
    // Those of search_c.so in a folder. A build of four parameters counts two valuations where the fourth has two numbers.
    pub fn load(folder: &str) -> Search {
        let path = format!("{folder}/search_c.so");
        let some = address(&path, "search_some");
        // The types are those of the crate's functions; an older one has no search_some.
        let (first, count, some) = unsafe {
            let first = std::mem::transmute::<*mut c_void, SearchFirst>(function(&path, "search_first"));
            let count = std::mem::transmute::<*mut c_void, SearchCount>(function(&path, "search_count"));
            (first, count, (!some.is_null()).then(|| std::mem::transmute::<*mut c_void, SearchSome>(some)))
        };
        let mut search = Search { parameters: 4, first, count, some };
        let probe = Input { ranges: vec![0, 0, 0, 0, 0, 0, 0, 1], inequalities: vec![] };
        if search.ask(Ask::Count, &probe, [0; 4]) == 1 {
            search.parameters = 3;
        }
        search
    }

    // What tells soonest whether there is a valuation.
    pub fn soonest(&self) -> Ask {
        if self.some.is_some() { Ask::Some } else { Ask::First }
    }

    // The number of parameter k in the first valuation, or what stands for nothing; with three parameters all of them packed.
    fn first_at(&self, input: &Input, k: usize) -> i64 {
        let (a, b) = (&input.ranges, &input.inequalities);
        // The function reads the two slices, and asks nothing of their contents.
        unsafe { (self.first)(a.as_ptr(), a.len(), b.as_ptr(), b.len(), k) }
    }

    // One call: its number as it comes.
    pub fn ask(&self, ask: Ask, input: &Input, guess: system::Valuation) -> i64 {
        let input = black_box(input);
        let (a, b) = (&input.ranges, &input.inequalities);
        // As above.
        match (ask, self.some) {
            (Ask::Count, _) => unsafe { (self.count)(a.as_ptr(), a.len(), b.as_ptr(), b.len()) as i64 },
            (Ask::Some, Some(some)) => unsafe { some(a.as_ptr(), a.len(), guess.as_ptr(), guess.len(), b.as_ptr(), b.len()) as i64 },
            (Ask::First, _) | (Ask::Some, None) => self.first_at(input, 0),
        }
    }

    // The first valuation. Three numbers are packed by 16 bits, counted from the lowest, and -1 is nothing; four come one
    // by one, and 65,536 is nothing.
    fn whole_first(&self, input: &Input) -> Option<system::Valuation> {
        if self.parameters == 4 {
            let numbers: [i64; 4] = std::array::from_fn(|k| self.first_at(input, k));
            return (numbers[0] != 65536).then(|| numbers.map(|x| x as i16));
        }
        let packed = self.first_at(input, 0);
        let number = |k: i64| ((packed >> (16 * k) & 65535) - 32768) as i16;
        (packed != -1).then(|| [number(2), number(1), number(0), 0])
    }

    // The first valuation, how many there are, and whether there is one.
    pub fn answers(&self, input: &Input, guess: system::Valuation) -> (Option<system::Valuation>, i64, bool) {
        let first = self.whole_first(input);
        let some = self.some.map_or(first.is_some(), |_| self.ask(Ask::Some, input, guess) == 1);
        (first, self.ask(Ask::Count, input, guess), some)
    }
}
