//! An archive that is loaded while the program runs, so that two of them can be timed in turns.

use crate::batch::Prices;
use palette_oracle::generate::sheets::{Cut, DEPTH};
use palette_oracle::Palette;
use std::ffi::{c_char, c_int, c_void, CString};
use std::os::unix::ffi::OsStrExt;
use std::path::Path;
use std::process::Command;
use std::sync::atomic::{AtomicU32, Ordering::Relaxed};
use std::{env, fs, mem, process};

// As in station/include/palette.h.
type Search = unsafe extern "C" fn(
    samples: *const f32,
    count: usize,
    width: usize,
    height: usize,
    bd: u32,
    lambda: f32,
    costs: *const f32,
    entries: usize,
    map: *mut u8,
    map_room: usize,
    flags: *mut u8,
    flag_room: usize,
    found: *mut [u32; 10],
    bits: *mut [f32; 2],
) -> u32;

type List = unsafe extern "C" fn(
    width: usize,
    height: usize,
    bd: u32,
    colors: *const [u16; 8],
    n: usize,
    transposed: bool,
    map: *const u8,
    cells: usize,
    flags: *const u8,
    lines: usize,
    cache: *const u16,
    cached: usize,
    words: *mut u32,
    room: usize,
    listed: *mut [u32; 2],
) -> u32;

type Read = unsafe extern "C" fn(
    width: usize,
    height: usize,
    bd: u32,
    cache: *const u16,
    cached: usize,
    words: *const u32,
    count: usize,
    map: *mut u8,
    map_room: usize,
    flags: *mut u8,
    flag_room: usize,
    read: *mut [u32; 10],
) -> u32;

type Estimate = unsafe extern "C" fn(head: f32, map: f32) -> f32;

extern "C" {
    fn dlopen(path: *const c_char, mode: c_int) -> *mut c_void;
    fn dlsym(library: *mut c_void, name: *const c_char) -> *mut c_void;
}

/// `RTLD_NOW` of Linux. Names stay the library's own, so two with the same ones go together.
const NOW: c_int = 2;

/// Functions of an archive. It stays loaded until the program ends.
pub struct Archive {
    search: Search,
    list: List,
    read: Read,
    /// Archives from before L8 have none.
    estimate: Option<Estimate>,
}

/// Where search and reading write.
pub struct Room {
    pub map: Vec<u8>,
    pub flags: Vec<u8>,
    /// n, eight colours and orientation.
    pub fields: [u32; 10],
    /// Head and map bits; the first is the estimate where an archive knows no others.
    pub bits: [f32; 2],
}

impl Room {
    pub fn of(block: &Cut) -> Self {
        Room {
            map: vec![0; block.samples.len()],
            flags: vec![0; block.w.max(block.h)],
            fields: [0; 10],
            bits: [0.0; 2],
        }
    }
}

impl Archive {
    pub fn load(path: &str) -> Result<Archive, String> {
        let library = open(path)?;
        // SAFETY: the archive's functions of these names have these types.
        unsafe {
            Ok(Archive {
                search: mem::transmute::<*mut c_void, Search>(find(library, "palette_search")?),
                list: mem::transmute::<*mut c_void, List>(find(library, "palette_list")?),
                read: mem::transmute::<*mut c_void, Read>(find(library, "palette_read")?),
                estimate: find(library, "palette_estimate")
                    .ok()
                    .map(|place| mem::transmute::<*mut c_void, Estimate>(place)),
            })
        }
    }

    pub fn search(&self, block: &Cut, prices: &Prices, room: &mut Room) -> u32 {
        let costs = prices.costs.as_table();
        // SAFETY: each pointer and length is of one slice; the mutable ones do not overlap.
        unsafe {
            (self.search)(
                block.samples.as_ptr(),
                block.samples.len(),
                block.w,
                block.h,
                DEPTH,
                prices.lambda,
                costs.as_ptr(),
                costs.len(),
                room.map.as_mut_ptr(),
                room.map.len(),
                room.flags.as_mut_ptr(),
                room.flags.len(),
                &mut room.fields,
                &mut room.bits,
            )
        }
    }

    /// The estimate of what was searched last.
    pub fn estimate(&self, room: &Room) -> f32 {
        let [head, map_bits] = room.bits;
        // SAFETY: it takes and gives numbers alone.
        self.estimate
            .map_or(head, |estimate| unsafe { estimate(head, map_bits) })
    }

    /// Lists without a cache. `colors` are the palette's in eight places.
    pub fn list(&self, palette: &Palette, colors: &[u16; 8], words: &mut [u32]) -> Option<usize> {
        let mut listed = [0; 2];
        let cache: [u16; 0] = [];
        // SAFETY: each pointer and length is of one slice; the mutable ones do not overlap.
        let number = unsafe {
            (self.list)(
                palette.w,
                palette.h,
                palette.bd,
                colors,
                palette.colors.len(),
                palette.transposed,
                palette.map.as_ptr(),
                palette.map.len(),
                palette.flags.as_ptr(),
                palette.flags.len(),
                cache.as_ptr(),
                cache.len(),
                words.as_mut_ptr(),
                words.len(),
                &mut listed,
            )
        };
        (number == 0).then_some(listed[0] as usize)
    }

    pub fn read(&self, block: &Cut, words: &[u32], room: &mut Room) -> u32 {
        let cache: [u16; 0] = [];
        // SAFETY: each pointer and length is of one slice; the mutable ones do not overlap.
        unsafe {
            (self.read)(
                block.w,
                block.h,
                DEPTH,
                cache.as_ptr(),
                cache.len(),
                words.as_ptr(),
                words.len(),
                room.map.as_mut_ptr(),
                room.map.len(),
                room.flags.as_mut_ptr(),
                room.flags.len(),
                &mut room.fields,
            )
        }
    }
}

/// Links the archive to a library, loads that and removes the file again. The name is one that was
/// not loaded before, so that an archive can be loaded twice.
fn open(path: &str) -> Result<*mut c_void, String> {
    static LOADED: AtomicU32 = AtomicU32::new(0);
    let number = LOADED.fetch_add(1, Relaxed);
    let name = format!("palette-bench-{}-{number}.so", process::id());
    let file = env::temp_dir().join(name);
    link(path, &file)?;
    let text = CString::new(file.as_os_str().as_bytes()).map_err(|e| e.to_string())?;
    // SAFETY: the text ends in 0; the library runs nothing of its own when it is loaded.
    let library = unsafe { dlopen(text.as_ptr(), NOW) };
    fs::remove_file(&file).map_err(|e| format!("{}: {e}", file.display()))?;
    if library.is_null() {
        return Err(format!("{path}: cannot be loaded"));
    }
    Ok(library)
}

fn link(path: &str, file: &Path) -> Result<(), String> {
    let mut compiler = Command::new("cc");
    compiler.arg("-shared").arg("-o").arg(file);
    compiler.args(["-Wl,--whole-archive", path, "-Wl,--no-whole-archive"]);
    match compiler.status() {
        Ok(status) if status.success() => Ok(()),
        _ => Err(format!("{path}: cc cannot link it to a library")),
    }
}

fn find(library: *mut c_void, name: &str) -> Result<*mut c_void, String> {
    let text = CString::new(name).map_err(|e| e.to_string())?;
    // SAFETY: the library is loaded and the text ends in 0.
    let place = unsafe { dlsym(library, text.as_ptr()) };
    if place.is_null() {
        return Err(format!("the archive has no {name}"));
    }
    Ok(place)
}
