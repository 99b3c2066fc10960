// Sessions from Rust: a safe type over the calls of geosvm.h, which keeps what that header asks for by Rust's own rules.
use std::fmt;
use std::fs::{File, OpenOptions};
use std::os::fd::AsRawFd;

/// GEOSVM_CLOSED is one of zeros.
#[repr(C)]
struct Raw {
    at: *mut u8,
    is_open: bool,
    file: isize,
}

unsafe extern "C" {
    fn geosvm_open(s: *mut Raw, number: i32, frames: usize) -> i32;
    fn geosvm_create(s: *mut Raw, number: i32, frames: usize) -> i32;
    fn geosvm_close(s: *mut Raw) -> i32;
    fn geosvm_command(s: *mut Raw, line: *const u8, size: usize, reply: *mut u8, room: usize, length: *mut usize) -> i32;
    fn geosvm_newraw(s: *mut Raw, user_id: u16, size: u32, block: *mut u16) -> i32;
    fn geosvm_vwrite(s: *mut Raw, block: u16, at: u32, bytes: *const u8, size: usize) -> i32;
    fn geosvm_undo(s: *mut Raw) -> i32;
    fn geosvm_save(s: *mut Raw) -> i32;
    fn geosvm_fault_name(code: i32, name: *mut u8, room: usize, length: *mut usize) -> i32;
}

/// Not a code of the library: the file itself could not be opened or locked.
const IN_USE: i32 = -1;

#[derive(PartialEq)]
struct Code(i32);

impl fmt::Debug for Code {
    fn fmt(&self, out: &mut fmt::Formatter) -> fmt::Result {
        let (mut name, mut n) = ([0u8; 32], 0);
        match unsafe { geosvm_fault_name(self.0, name.as_mut_ptr(), name.len(), &mut n) } {
            0 => write!(out, "{}", String::from_utf8_lossy(&name[..n])),
            _ => write!(out, "code {}", self.0),
        }
    }
}

fn result(code: i32) -> Result<(), Code> {
    if code == 0 { Ok(()) } else { Err(Code(code)) }
}

/// Not `Clone`, so never copied; `&mut self`, so one call at a time; closed by drop, before its file. It may go to another thread.
struct Session {
    raw: Raw,
    _file: File,
}

unsafe impl Send for Session {}

impl Session {
    fn on(path: &str, create: bool) -> Result<Session, Code> {
        // Nothing is cut before the lock is taken: another program may have the document open. `geosvm_create` makes it anew.
        let opened = OpenOptions::new().read(true).write(true).create(create).truncate(false).open(path);
        let file = opened.map_err(|_| Code(IN_USE))?;
        file.try_lock().map_err(|_| Code(IN_USE))?;
        let mut raw = Raw { at: std::ptr::null_mut(), is_open: false, file: 0 };
        let begin = if create { geosvm_create } else { geosvm_open };
        result(unsafe { begin(&mut raw, file.as_raw_fd(), 8) })?;
        Ok(Session { raw, _file: file })
    }

    fn command(&mut self, line: &str) -> Result<String, Code> {
        let (mut reply, mut n) = (vec![0u8; 131_072], 0);
        result(unsafe { geosvm_command(&mut self.raw, line.as_ptr(), line.len(), reply.as_mut_ptr(), reply.len(), &mut n) })?;
        reply.truncate(n);
        Ok(String::from_utf8_lossy(&reply).trim_end().to_string())
    }

    fn new_raw(&mut self, user_id: u16, size: u32) -> Result<u16, Code> {
        let mut block = 0;
        result(unsafe { geosvm_newraw(&mut self.raw, user_id, size, &mut block) })?;
        Ok(block)
    }

    fn write_raw(&mut self, block: u16, at: u32, bytes: &[u8]) -> Result<(), Code> {
        result(unsafe { geosvm_vwrite(&mut self.raw, block, at, bytes.as_ptr(), bytes.len()) })
    }

    fn undo(&mut self) -> Result<(), Code> {
        result(unsafe { geosvm_undo(&mut self.raw) })
    }

    fn save(&mut self) -> Result<(), Code> {
        result(unsafe { geosvm_save(&mut self.raw) })
    }
}

impl Drop for Session {
    fn drop(&mut self) {
        unsafe { geosvm_close(&mut self.raw) };
    }
}

fn main() {
    let mut all: Vec<Session> = (0..20).map(|i| Session::on(&format!("rs-{i}.document"), true).unwrap()).collect();
    for (i, s) in all.iter_mut().enumerate() {
        let block = s.new_raw(1, 2).unwrap();
        s.write_raw(block, 0, &(i as u16).to_be_bytes()).unwrap();
        s.write_raw(block, 0, &[0xff, 0xff]).unwrap();
    }
    println!("in use: {:?}", Session::on("rs-17.document", false).err());
    for s in &mut all {
        s.undo().unwrap();
        s.save().unwrap();
    }
    drop(all);
    for i in 0..20 {
        let mut again = Session::on(&format!("rs-{i}.document"), false).unwrap();
        println!("{i}: {}, {:?}", again.command("vread 0001").unwrap(), again.undo());
    }
    println!("no document: {:?}", Session::on("/dev/null", false).err());
}
