//! The exclusive router, held by a program in Rust through the calls for C.
use std::ffi::c_void;
use std::process::ExitCode;
use std::ptr::null_mut;

const ROUTER: &str =
    "connector main(in source: int 0..9, out left: int 0..9, out right: int 0..9) {
  node to_left: int 0..9;
  node to_right: int 0..9;
  node chosen: int 0..9;
  lossy source to_left;
  lossy source to_right;
  sync to_left left;
  sync to_left chosen;
  sync to_right right;
  sync to_right chosen;
  syncdrain source chosen;
}
";

/// `struct reo_handle` of `reo.h`.
#[repr(C)]
struct Handle {
    full: bool,
    at: *mut c_void,
}

/// `struct reo_round` of `reo.h`.
#[repr(C)]
#[derive(Default)]
struct Round {
    number: u64,
    moves: usize,
    jammed: usize,
    idle: bool,
}

extern "C" {
    fn reo_open(
        handle: *mut Handle,
        text: *const u8,
        text_length: usize,
        room: *mut u8,
        room_length: usize,
        length: *mut usize,
    ) -> u32;
    fn reo_close(handle: *mut Handle);
    fn reo_port(handle: *mut Handle, name: *const u8, name_length: usize, port: *mut usize) -> u32;
    fn reo_write(handle: *mut Handle, port: usize, text: *const u8, text_length: usize) -> u32;
    fn reo_take(handle: *mut Handle, port: usize) -> u32;
    fn reo_round(handle: *mut Handle, budget: u64, round: *mut Round) -> u32;
    fn reo_moved(handle: *mut Handle, index: usize, port: *mut usize) -> u32;
    fn reo_item(
        handle: *mut Handle,
        index: usize,
        room: *mut u8,
        room_length: usize,
        length: *mut usize,
    ) -> u32;
    fn reo_words(number: u32, room: *mut u8, room_length: usize) -> usize;
}

/// What a call did not do, in the library's words.
#[derive(Debug)]
struct Refused(String);

fn done(number: u32) -> Result<(), Refused> {
    if number == 0 {
        return Ok(());
    }
    let mut room = [0; 32];
    let length = unsafe { reo_words(number, room.as_mut_ptr(), room.len()) };
    let words = &room[..length.min(room.len())];
    Err(Refused(String::from_utf8_lossy(words).into_owned()))
}

/// A connector that is open until it is dropped.
struct Connector(Handle);

impl Connector {
    fn open(text: &str) -> Result<Connector, Refused> {
        let mut made = Connector(Handle { full: false, at: null_mut() });
        let mut cause = [0; 256];
        let mut length = 0;
        let number = unsafe {
            reo_open(
                &mut made.0,
                text.as_ptr(),
                text.len(),
                cause.as_mut_ptr(),
                cause.len(),
                &mut length,
            )
        };
        if length > 0 {
            let words = &cause[..length.min(cause.len())];
            return Err(Refused(String::from_utf8_lossy(words).into_owned()));
        }
        done(number).map(|()| made)
    }

    fn port(&mut self, name: &str) -> Result<usize, Refused> {
        let mut port = 0;
        done(unsafe { reo_port(&mut self.0, name.as_ptr(), name.len(), &mut port) })?;
        Ok(port)
    }

    fn write(&mut self, port: usize, item: &str) -> Result<(), Refused> {
        done(unsafe { reo_write(&mut self.0, port, item.as_ptr(), item.len()) })
    }

    fn take(&mut self, port: usize) -> Result<(), Refused> {
        done(unsafe { reo_take(&mut self.0, port) })
    }

    fn round(&mut self) -> Result<Round, Refused> {
        let mut round = Round::default();
        done(unsafe { reo_round(&mut self.0, 999_999_999_999_999_999, &mut round) })?;
        Ok(round)
    }

    /// The port and the item's text of a move of the last round.
    fn moved(&mut self, index: usize) -> Result<(usize, String), Refused> {
        let (mut port, mut length, mut room) = (0, 0, [0; 64]);
        done(unsafe { reo_moved(&mut self.0, index, &mut port) })?;
        done(unsafe {
            reo_item(&mut self.0, index, room.as_mut_ptr(), room.len(), &mut length)
        })?;
        let text = &room[..length.min(room.len())];
        Ok((port, String::from_utf8_lossy(text).into_owned()))
    }
}

impl Drop for Connector {
    fn drop(&mut self) {
        unsafe { reo_close(&mut self.0) }
    }
}

fn run() -> Result<(), Refused> {
    let mut router = Connector::open(ROUTER)?;
    let names = ["source", "left", "right"];
    let ports = [router.port(names[0])?, router.port(names[1])?, router.port(names[2])?];
    for (item, side) in [("1", 1), ("2", 2), ("3", 1)] {
        router.write(ports[0], item)?;
        router.take(ports[side])?;
        let round = router.round()?;
        print!("round {}:", round.number);
        for index in 0..round.moves {
            let (port, text) = router.moved(index)?;
            for (name, _) in names.iter().zip(ports).filter(|(_, known)| *known == port) {
                print!(" {name} {text}");
            }
        }
        println!();
    }
    Ok(())
}

fn main() -> ExitCode {
    match run() {
        Ok(()) => ExitCode::SUCCESS,
        Err(Refused(words)) => {
            eprintln!("{words}");
            ExitCode::FAILURE
        }
    }
}
