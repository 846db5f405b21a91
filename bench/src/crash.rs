//! Tells a crash of an implementation, or a call that doesn't end, as a difference: which case, which
//! call, beside which slice. The handler of the signals allocates nothing; it saves the case and ends
//! the program with 1.

use std::cell::Cell;
use std::ffi::{c_char, c_int, c_uint, c_void, CString};
use std::fmt::{self, Write};
use std::path::Path;
use std::ptr::null_mut;
use std::sync::atomic::{AtomicBool, Ordering};
use std::sync::OnceLock;

use crate::cases::Case;
use crate::guard::PAGE;
use crate::lent::Span;

/// More slices than any call is lent.
const SPANS: usize = 24;
const ALARM: c_int = 14;
const SIGNALS: [(c_int, &str); 6] = [
    (4, "SIGILL"),
    (6, "SIGABRT"),
    (7, "SIGBUS"),
    (8, "SIGFPE"),
    (11, "SIGSEGV"),
    (ALARM, "not done in time"),
];

const WITH_INFORMATION: c_int = 0x4;
const ON_ITS_OWN_STACK: c_int = 0x0800_0000;
const WRITE_FROM_NOTHING: c_int = 0o1 | 0o100 | 0o1000;

#[repr(C)]
struct Action {
    handler: extern "C" fn(c_int, *const Information, *mut c_void),
    mask: [u64; 16],
    flags: c_int,
    restorer: usize,
}

#[repr(C)]
struct Information {
    numbers: [c_int; 4],
    address: usize,
}

extern "C" {
    fn sigaction(signal: c_int, action: *const Action, before: *mut Action) -> c_int;
    fn write(file: c_int, bytes: *const u8, length: usize) -> isize;
    fn open(path: *const c_char, flags: c_int, mode: c_int) -> c_int;
    fn close(file: c_int) -> c_int;
    fn unlink(path: *const c_char) -> c_int;
    fn mkdir(path: *const c_char, mode: c_int) -> c_int;
    fn alarm(seconds: c_uint) -> c_uint;
    fn pause() -> c_int;
    fn _exit(status: c_int) -> !;
}

/// Where a case is saved, as the C library takes it.
struct Folder {
    shown: String,
    itself: CString,
    chart: CString,
    rules: CString,
    more: CString,
    text: CString,
}

static FOLDER: OnceLock<Folder> = OnceLock::new();
static CRASHED: AtomicBool = AtomicBool::new(false);

/// The call under way on a thread.
#[derive(Clone, Copy)]
struct Watch {
    /// Seed and number of the case, where it has them.
    origin: Option<(u64, u64)>,
    kind: &'static str,
    dirt: u64,
    chart: (*const u8, usize),
    rules: (*const u8, usize),
    /// No address where the case has no third file.
    more: (*const u8, usize),
    planner: &'static str,
    call: &'static str,
    spans: [Option<Span>; SPANS],
}

const NOTHING: Watch = Watch {
    origin: None,
    kind: "no case",
    dirt: 0,
    chart: (std::ptr::null(), 0),
    rules: (std::ptr::null(), 0),
    more: (std::ptr::null(), 0),
    planner: "no implementation",
    call: "no call",
    spans: [None; SPANS],
};

thread_local! {
    static WATCH: Cell<Watch> = const { Cell::new(NOTHING) };
}

/// From here on a crash is told, and its case saved in a folder.
pub fn install(folder: &Path) {
    let path = |file: &str| {
        let whole = folder.join(file);
        CString::new(whole.as_os_str().as_encoded_bytes()).unwrap_or_default()
    };
    let _ = FOLDER.set(Folder {
        shown: folder.display().to_string(),
        itself: path(""),
        chart: path("chart.bin"),
        rules: path("rules.bin"),
        more: path("more.bin"),
        text: path("case.txt"),
    });
    let flags = WITH_INFORMATION | ON_ITS_OWN_STACK;
    let action = Action { handler: on_crash, mask: [0; 16], flags, restorer: 0 };
    for (signal, name) in SIGNALS {
        // SAFETY: the struct is laid out as the C library's on Linux x86-64, and the handler uses
        // nothing but memory that is there and the system's calls.
        let result = unsafe { sigaction(signal, &action, null_mut()) };
        assert_eq!(result, 0, "a handler of {name}");
    }
}

/// The calls that follow on this thread are of this case. Its files are kept until the next one.
pub fn begin(case: &Case, origin: Option<(u64, u64)>) {
    WATCH.set(Watch {
        origin,
        kind: case.kind,
        dirt: case.dirt,
        chart: (case.chart.as_ptr(), case.chart.len()),
        rules: (case.rules.as_ptr(), case.rules.len()),
        more: case.more.as_ref().map_or(NOTHING.more, |more| (more.as_ptr(), more.len())),
        ..NOTHING
    });
}

/// The case is over: its files may go.
pub fn end() {
    WATCH.set(NOTHING);
}

/// From now on the program has so many seconds; 0 for any number. Only where it has one thread.
pub fn end_within(seconds: u32) {
    // SAFETY: sets a timer.
    unsafe { alarm(seconds) };
}

/// The call that follows on this thread, with all that is lent to it.
pub fn watch(planner: &'static str, call: &'static str, files: &[Span], lent: &[Span]) {
    let mut spans = [None; SPANS];
    for (kept, span) in spans.iter_mut().zip(files.iter().chain(lent)) {
        *kept = Some(*span);
    }
    WATCH.set(Watch { planner, call, spans, ..WATCH.get() });
}

/// One more slice that is lent to the call under way.
pub fn add(span: Span) {
    let mut watch = WATCH.get();
    watch.spans.iter_mut().find(|kept| kept.is_none()).into_iter().for_each(|free| {
        *free = Some(span);
    });
    WATCH.set(watch);
}

extern "C" fn on_crash(signal: c_int, information: *const Information, _: *mut c_void) {
    if CRASHED.swap(true, Ordering::SeqCst) {
        // Another thread tells its own crash and ends the program.
        loop {
            // SAFETY: waits for a signal.
            unsafe { pause() };
        }
    }
    // SAFETY: the system passes what it knows of the signal.
    let address = unsafe { (*information).address };
    WATCH.with(|watch| {
        // SAFETY: the thread that would change it stands still.
        let watch = unsafe { &*watch.as_ptr() };
        let _ = tell(watch, &Fault { signal, address, spans: &watch.spans });
    });
    // SAFETY: ends the program without running anything else of it.
    unsafe { _exit(1) }
}

/// A signal and the address it is about, in words: beside which slice that lies.
struct Fault<'a> {
    signal: c_int,
    address: usize,
    spans: &'a [Option<Span>],
}

impl fmt::Display for Fault<'_> {
    fn fmt(&self, f: &mut fmt::Formatter) -> fmt::Result {
        let Fault { signal, address, spans } = *self;
        let name = SIGNALS.iter().find(|known| known.0 == signal).map_or("signal", |known| known.1);
        if signal == ALARM {
            return f.write_str(name);
        }
        for Span { name: slice, start, bytes, .. } in spans.iter().flatten() {
            let end = start + bytes;
            if (start.saturating_sub(PAGE)..*start).contains(&address) {
                let before = start - address;
                return write!(f, "{name} {before} bytes before the slice {slice} ({bytes} bytes)");
            }
            if (end..end + PAGE).contains(&address) {
                let past = address - end;
                return write!(f, "{name} {past} bytes past the end of {slice} ({bytes} bytes)");
            }
        }
        write!(f, "{name} at the address {address:#x}, beside no lent slice")
    }
}

fn tell(watch: &Watch, fault: &Fault) -> fmt::Result {
    let Watch { planner, call, kind, dirt, .. } = watch;
    let mut shown = Output(1);
    if let Some((seed, number)) = watch.origin {
        write!(shown, "seed {seed}, case {number}, ")?;
    }
    writeln!(shown, "{kind}: {planner} {call}: {fault}")?;
    let (Some(folder), false) = (FOLDER.get(), watch.chart.0.is_null()) else { return Ok(()) };
    // SAFETY: the path ends with a zero byte.
    unsafe { mkdir(folder.itself.as_ptr(), 0o777) };
    let saved = save(&folder.chart, |file| file.bytes(watch.chart))
        .and_then(|()| save(&folder.rules, |file| file.bytes(watch.rules)))
        .and_then(|()| save_more(&folder.more, watch.more))
        .and_then(|()| {
            save(&folder.text, |file| {
                write!(file, "kind {kind}\ndirt {dirt}\nplanner {planner}\ncall {call}\n{fault}\n")
            })
        });
    match saved {
        Ok(()) => writeln!(shown, "to run it again: --replay {}", folder.shown),
        Err(_) => writeln!(shown, "the case could not be saved in {}", folder.shown),
    }
}

/// Saves the third file; where there is none, that of an earlier case goes.
fn save_more(path: &CString, more: (*const u8, usize)) -> fmt::Result {
    if more.0.is_null() {
        // SAFETY: the path ends with a zero byte.
        unsafe { unlink(path.as_ptr()) };
        return Ok(());
    }
    save(path, |file| file.bytes(more))
}

fn save(path: &CString, content: impl FnOnce(&mut Output) -> fmt::Result) -> fmt::Result {
    // SAFETY: the path ends with a zero byte.
    let mut file = Output(unsafe { open(path.as_ptr(), WRITE_FROM_NOTHING, 0o666) });
    let written = content(&mut file);
    // SAFETY: closes what was opened here.
    unsafe { close(file.0) };
    written
}

/// An open file, written without a buffer.
struct Output(c_int);

impl Output {
    fn bytes(&mut self, (bytes, length): (*const u8, usize)) -> fmt::Result {
        // SAFETY: bytes that are there, and their number.
        let written = unsafe { write(self.0, bytes, length) };
        if written == length as isize {
            Ok(())
        } else {
            Err(fmt::Error)
        }
    }
}

impl Write for Output {
    fn write_str(&mut self, text: &str) -> fmt::Result {
        self.bytes((text.as_ptr(), text.len()))
    }
}
