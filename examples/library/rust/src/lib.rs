//! Safe calls of librv; `rv.h` says what each does.
//!
//! ```no_run
//! let executable = rv::build(&[b".globl _start\n_start: li a0, 7; li a7, 93; ecall\n"])?;
//! assert_eq!(rv::run(&executable, b"", 1_000_000)?.code(), Some(7));
//! # Ok::<(), rv::Error>(())
//! ```

use std::fmt;

/// The functions of `rv.h` as they are.
pub mod ffi {
    #[repr(C)]
    #[derive(Clone, Copy, Debug, Default)]
    pub struct Answer {
        pub length: u64,
        pub second_length: u64,
        pub kind: u32,
        pub number: u32,
        pub file: u32,
        pub line: u32,
    }

    #[repr(C)]
    #[derive(Clone, Copy, Debug, Default, PartialEq, Eq)]
    pub struct End {
        pub address: u64,
        pub kind: u32,
        pub code: u32,
    }

    #[repr(C)]
    #[derive(Clone, Copy, Debug, Default, PartialEq, Eq)]
    pub struct State {
        pub registers: [u64; 32],
        pub pc: u64,
        pub count: u64,
    }

    extern "C" {
        pub fn rv_build(
            sources: *const u8,
            sources_length: usize,
            lengths: *const u64,
            count: usize,
            text_start: u64,
            flags: u32,
            executable: *mut u8,
            executable_room: usize,
            map: *mut u8,
            map_room: usize,
            answer: *mut Answer,
        ) -> u32;
        pub fn rv_run(
            executable: *const u8,
            executable_length: usize,
            input: *const u8,
            input_length: usize,
            limit: u64,
            console: *mut u8,
            console_room: usize,
            end: *mut End,
            count: *mut u64,
            answer: *mut Answer,
        ) -> u32;
        pub fn rv_state(
            executable: *const u8,
            executable_length: usize,
            input: *const u8,
            input_length: usize,
            steps: u64,
            address: u64,
            memory: *mut u8,
            memory_room: usize,
            rights: *mut u8,
            rights_room: usize,
            console: *mut u8,
            console_room: usize,
            state: *mut State,
            end: *mut End,
            answer: *mut Answer,
        ) -> u32;
        pub fn rv_resume(
            executable: *const u8,
            executable_length: usize,
            input: *const u8,
            input_length: usize,
            from: *const u8,
            from_length: usize,
            steps: u64,
            address: u64,
            memory: *mut u8,
            memory_room: usize,
            rights: *mut u8,
            rights_room: usize,
            console: *mut u8,
            console_room: usize,
            kept: *mut u8,
            kept_room: usize,
            state: *mut State,
            end: *mut End,
            answer: *mut Answer,
        ) -> u32;
        pub fn rv_disassemble(
            bytes: *const u8,
            bytes_length: usize,
            address: u64,
            text: *mut u8,
            text_room: usize,
            taken: *mut u64,
            answer: *mut Answer,
        ) -> u32;
    }
}

pub use ffi::{End, State};

const TEXT_START: u64 = 0x1_0000;
const ROOM: usize = 1 << 16;
const EXITED: u32 = 0;

/// Why a call was not done.
#[derive(Clone, Debug, PartialEq, Eq)]
pub enum Error {
    /// A fault: its line, and the source or file that has it, from 1, where one has it.
    Refused {
        line: String,
        file: Option<u32>,
    },
    Memory,
    Unfit,
    TooLong,
    Unknown,
}

impl fmt::Display for Error {
    fn fmt(&self, f: &mut fmt::Formatter<'_>) -> fmt::Result {
        match self {
            Error::Refused {
                line,
                file: Some(file),
            } => write!(f, "file {file}{line}"),
            Error::Refused { line, file: None } => f.write_str(line),
            Error::Memory => f.write_str("out of memory"),
            Error::Unfit => f.write_str("the arguments do not belong together"),
            Error::TooLong => f.write_str("the console has more than 64 MiB"),
            Error::Unknown => f.write_str("the run is not known"),
        }
    }
}

impl std::error::Error for Error {}

/// What a run has come to.
#[derive(Clone, Debug, PartialEq, Eq)]
pub struct Run {
    pub console: Vec<u8>,
    pub end: End,
    /// How many instructions there were.
    pub count: u64,
}

impl Run {
    /// The code of an exit.
    pub fn code(&self) -> Option<u8> {
        (self.end.kind == EXITED).then_some(self.end.code as u8)
    }
}

/// Has a call give bytes: once more, with room for all, where they had none.
fn bytes_of(mut call: impl FnMut(&mut [u8], &mut ffi::Answer) -> u32) -> Result<Vec<u8>, Error> {
    let mut bytes = vec![0; ROOM];
    loop {
        let mut answer = ffi::Answer::default();
        let status = call(&mut bytes, &mut answer);
        let length = (answer.length as usize).min(bytes.len());
        match status {
            0 => {
                bytes.truncate(length);
                return Ok(bytes);
            }
            1 => bytes.resize(answer.length as usize, 0),
            2 => {
                let line = String::from_utf8_lossy(&bytes[..length]).into_owned();
                let file = (answer.file != 0).then_some(answer.file);
                return Err(Error::Refused { line, file });
            }
            3 => return Err(Error::Memory),
            4 => return Err(Error::Unfit),
            5 => return Err(Error::TooLong),
            _ => return Err(Error::Unknown),
        }
    }
}

/// Assembles and links sources: the bytes of an executable.
pub fn build(sources: &[&[u8]]) -> Result<Vec<u8>, Error> {
    let text = sources.concat();
    let lengths: Vec<u64> = sources.iter().map(|it| it.len() as u64).collect();
    bytes_of(|executable, answer| unsafe {
        // (pointers of a Vec and of an array are not null)
        ffi::rv_build(
            text.as_ptr(),
            text.len(),
            lengths.as_ptr(),
            lengths.len(),
            TEXT_START,
            0,
            executable.as_mut_ptr(),
            executable.len(),
            [].as_mut_ptr(),
            0,
            answer,
        )
    })
}

/// Runs an executable for at most `limit` instructions.
pub fn run(executable: &[u8], input: &[u8], limit: u64) -> Result<Run, Error> {
    let (mut end, mut count) = (End::default(), 0);
    let console = bytes_of(|console, answer| unsafe {
        ffi::rv_run(
            executable.as_ptr(),
            executable.len(),
            input.as_ptr(),
            input.len(),
            limit,
            console.as_mut_ptr(),
            console.len(),
            &mut end,
            &mut count,
            answer,
        )
    })?;
    Ok(Run {
        console,
        end,
        count,
    })
}

/// The machine after so many instructions, with the bytes of memory from an address on in `memory`.
pub fn state(
    executable: &[u8],
    input: &[u8],
    steps: u64,
    address: u64,
    memory: &mut [u8],
) -> Result<State, Error> {
    let mut state = State::default();
    let mut end = End::default();
    bytes_of(|console, answer| unsafe {
        ffi::rv_state(
            executable.as_ptr(),
            executable.len(),
            input.as_ptr(),
            input.len(),
            steps,
            address,
            memory.as_mut_ptr(),
            memory.len(),
            [].as_mut_ptr(),
            0,
            console.as_mut_ptr(),
            console.len(),
            &mut state,
            &mut end,
            answer,
        )
    })?;
    Ok(state)
}

/// A machine, and its state as bytes for [`resume`].
#[derive(Clone, Debug, PartialEq, Eq)]
pub struct Resumed {
    pub state: State,
    pub end: End,
    /// What the instructions of this call wrote.
    pub console: Vec<u8>,
    pub kept: Vec<u8>,
}

/// The machine so many instructions after a kept state, or after the start where `from` is empty, with the bytes of memory
/// from an address on in `memory`.
pub fn resume(
    executable: &[u8],
    input: &[u8],
    from: &[u8],
    steps: u64,
    address: u64,
    memory: &mut [u8],
) -> Result<Resumed, Error> {
    let (mut state, mut end, mut length) = (State::default(), End::default(), 0);
    let mut kept = vec![0; from.len() + ROOM];
    loop {
        let console = bytes_of(|console, answer| unsafe {
            let status = ffi::rv_resume(
                executable.as_ptr(),
                executable.len(),
                input.as_ptr(),
                input.len(),
                from.as_ptr(),
                from.len(),
                steps,
                address,
                memory.as_mut_ptr(),
                memory.len(),
                [].as_mut_ptr(),
                0,
                console.as_mut_ptr(),
                console.len(),
                kept.as_mut_ptr(),
                kept.len(),
                &mut state,
                &mut end,
                answer,
            );
            length = answer.second_length as usize;
            // (a console that had room is whole)
            if status == 1 && answer.length as usize <= console.len() { 0 } else { status }
        })?;
        if length <= kept.len() {
            kept.truncate(length);
            return Ok(Resumed {
                state,
                end,
                console,
                kept,
            });
        }
        kept.resize(length, 0);
    }
}

/// The text of the instruction at the front of bytes; none where there is none.
pub fn disassemble(bytes: &[u8], address: u64) -> Option<String> {
    let mut taken = 0;
    let text = bytes_of(|text, answer| unsafe {
        ffi::rv_disassemble(
            bytes.as_ptr(),
            bytes.len(),
            address,
            text.as_mut_ptr(),
            text.len(),
            &mut taken,
            answer,
        )
    });
    text.ok()
        .map(|text| String::from_utf8_lossy(&text).into_owned())
}
