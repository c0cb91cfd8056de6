// How much memory and stack the programs need, in kilobytes: the listing program on every sheet of sheets/, and one call of
// Windows and of Sweep from C.
use crate::sweep::sweep;
use crate::table::Table;
use crate::windows::windows;
use crate::{cuts, drawn, sheets};
use std::alloc::{alloc, Layout};
use std::ffi::{c_int, c_void};
use std::fs::File;
use std::io::Write;
use std::path::PathBuf;
use std::process::Command;
use std::time::Duration;

const PROGRAM: &str = "target/bin/listing";

// The steps in which limits are tried.
const PAGE: usize = 4;
// No limit is tried past this.
const MOST: usize = 64 * 1024;

extern "C" {
    fn pthread_attr_init(attributes: *mut Attributes) -> c_int;
    fn pthread_attr_setstack(attributes: *mut Attributes, stack: *mut c_void, bytes: usize) -> c_int;
    fn pthread_create(thread: *mut usize, attributes: *const Attributes, start: Start, argument: *mut c_void) -> c_int;
    fn pthread_join(thread: usize, answer: *mut *mut c_void) -> c_int;
}

type Start = extern "C" fn(*mut c_void) -> *mut c_void;

// At least as large as the C library's.
#[repr(C, align(16))]
struct Attributes([u8; 128]);

// A stack for one thread, filled with a mark.
const STACK: usize = 16 << 20;
const MARK: u8 = 0xa5;

// Runs the call that the argument points to.
extern "C" fn start(argument: *mut c_void) -> *mut c_void {
    // It is what `used` hands to the thread, and lives until the thread has ended.
    let call = unsafe { &*(argument as *const &dyn Fn()) };
    call();
    std::ptr::null_mut()
}

// How many bytes of its stack a thread writes down to, that makes one call.
fn used(call: &dyn Fn()) -> usize {
    let layout = Layout::from_size_align(STACK, 4096).expect("a size and an alignment");
    let mut attributes = Attributes([0; 128]);
    let mut thread = 0;
    // The memory is written before it is read, and by the thread only until it is joined; it is not given back, since it is
    // needed a few times only.
    unsafe {
        let stack = alloc(layout);
        assert!(!stack.is_null(), "memory for a stack");
        std::ptr::write_bytes(stack, MARK, STACK);
        let argument = &call as *const &dyn Fn() as *mut c_void;
        let made = pthread_attr_init(&mut attributes) == 0
            && pthread_attr_setstack(&mut attributes, stack.cast(), STACK) == 0
            && pthread_create(&mut thread, &attributes, start, argument) == 0
            && pthread_join(thread, std::ptr::null_mut()) == 0;
        assert!(made, "a thread");
        let left = std::slice::from_raw_parts(stack, STACK).iter().take_while(|&&byte| byte == MARK).count();
        STACK - left
    }
}

// Kilobytes of stack that a call of f on some inputs needs at most, beside what a thread needs that calls nothing.
fn stack<T>(inputs: &[T], f: impl Fn(&T) -> i64) -> usize {
    let nothing = used(&|| assert_eq!(inputs.iter().map(|_| 0).max(), Some(0)));
    let bytes = used(&|| assert!(inputs.iter().map(&f).max().is_some()));
    (bytes - nothing).div_ceil(1024)
}

// The files of sheets/.
fn stored() -> Vec<PathBuf> {
    let folder = std::fs::read_dir("sheets").expect("the folder sheets is there");
    let paths = folder.map(|entry| entry.expect("an entry of a folder").path());
    paths.filter(|path| path.extension().is_some_and(|x| x == "sheet")).collect()
}

// Whether the program lists every sheet under a limit of the shell: s for the stack, v for all memory.
fn lists_in(sheets: &[PathBuf], limit: &str, kilobytes: usize) -> bool {
    let script = "ulimit -$0 $1 && exec $2 < $3";
    sheets.iter().all(|sheet| {
        let words = ["-c", script, limit, &kilobytes.to_string(), PROGRAM];
        let output = Command::new("sh").args(words).arg(sheet).output();
        output.is_ok_and(|output| output.stdout.starts_with(b"pieces"))
    })
}

// The least limit under which it does, in whole pages. Ends the run if there is none.
fn least_limit(sheets: &[PathBuf], limit: &str) -> usize {
    let (mut low, mut high) = (0, MOST);
    if !lists_in(sheets, limit, high) {
        println!("{PROGRAM} does not list every sheet of sheets/ in {MOST} KB");
        std::process::exit(1);
    }
    while high - low > PAGE {
        let middle = (low + high) / 2;
        if lists_in(sheets, limit, middle) {
            high = middle;
        } else {
            low = middle;
        }
    }
    high
}

// The first word behind a name in /proc/PID/status.
fn status(id: u32, name: &str) -> Option<String> {
    let text = std::fs::read_to_string(format!("/proc/{id}/status")).ok()?;
    let line = text.lines().find(|line| line.starts_with(name))?;
    line.split_whitespace().nth(1).map(str::to_string)
}

// The most memory of the program that was resident, once it begins to print a sheet: it is held there by a pipe that is full.
fn resident(sheet: &PathBuf) -> usize {
    let (reader, mut writer) = std::io::pipe().expect("a pipe");
    writer.write_all(&[0; 1 << 16]).expect("room for what a pipe holds");
    let input = File::open(sheet).expect("a sheet of sheets/");
    let mut child = Command::new(PROGRAM).stdin(input).stdout(writer).spawn().expect("the program starts");
    let mut asleep = 0;
    for _ in 0..2000 {
        std::thread::sleep(Duration::from_millis(4));
        asleep = if status(child.id(), "State:").is_some_and(|state| state == "S") { asleep + 1 } else { 0 };
        if asleep == 5 {
            break;
        }
    }
    let kilobytes = status(child.id(), "VmHWM:").and_then(|number| number.parse().ok());
    drop(reader);
    child.wait().expect("the program ends");
    kilobytes.expect("the system tells how much was resident")
}

// The table.
pub fn run() {
    let stored = stored();
    let mut table = Table::new(&["", "KB"]);
    let mut push = |name: String, kilobytes: usize| table.push(vec![name, kilobytes.to_string()]);
    let most = stored.iter().map(resident).max().unwrap_or(0);
    push("the listing program, resident at most".to_string(), most);
    push("the listing program, least stack".to_string(), least_limit(&stored, "s"));
    push("the listing program, least address space".to_string(), least_limit(&stored, "v"));
    let inputs: Vec<sheets::Input> = sheets::all(1).into_iter().flat_map(|f| f.inputs).collect();
    let mut files: Vec<Vec<u8>> = stored.iter().map(|path| std::fs::read(path).expect("a sheet of sheets/")).collect();
    files.extend(cuts::all(1).iter().flat_map(cuts::Family::files));
    files.extend(drawn::all(1).into_iter().flat_map(|f| f.sheets).map(|drawn| drawn.file));
    files.extend(inputs.iter().map(|x| x.file.clone()));
    push(format!("a call of windows_count from C, stack, the most on {} files", files.len()), stack(&files, |file| windows(file)));
    let of_sweep = stack(&inputs, |x| sweep(&x.file, x.valuation));
    push(format!("a call of sweep_sheet from C, stack, the most on {} files", inputs.len()), of_sweep);
    println!("Memory. The listing program lists all {} sheets of sheets/.", stored.len());
    table.print();
}
