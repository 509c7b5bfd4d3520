//! The archive's functions as `include/mfs.h` declares them, the C library's threads, and the only `unsafe` code.
//!
//! Why each call of the archive is safe: its functions take a slice as a pointer and a length, keep neither, write only
//! behind a `*mut`, and ask nothing of their arguments. The structs hold plain numbers, for which every bit pattern is
//! good.

use crate::baseline::Form;
use std::ffi::c_void;

#[derive(Clone, Copy, Debug, Default, PartialEq, Eq)]
#[repr(C)]
pub struct Facts {
    pub signature: u16,
    pub created: u32,
    pub backup: u32,
    pub attributes: u16,
    pub files: u16,
    pub directory_start: u32,
    pub directory_length: u16,
    pub allocation_blocks: u16,
    pub block_size: u32,
    pub clump_size: u32,
    pub allocation_start: u32,
    pub next_number: u32,
    pub free_blocks: u16,
    pub name_length: u8,
    pub name: [u8; 27],
}

#[derive(Clone, Copy, Debug, Default, PartialEq, Eq)]
#[repr(C)]
pub struct ForkFacts {
    pub start: u16,
    pub logical: u32,
    pub physical: u32,
}

#[derive(Clone, Copy, Debug, PartialEq, Eq)]
#[repr(C)]
pub struct Entry {
    pub flags: u8,
    pub version: u8,
    pub finder: [u8; 16],
    pub number: u32,
    pub data: ForkFacts,
    pub resource: ForkFacts,
    pub created: u32,
    pub changed: u32,
    pub name_length: u8,
    pub name: [u8; 255],
}

#[derive(Clone, Copy, Debug, PartialEq, Eq)]
#[repr(C)]
pub struct CheckAnswer {
    pub number: u8,
    pub facts: Facts,
}

#[derive(Clone, Copy, Debug, PartialEq, Eq)]
#[repr(C)]
pub struct EntryAnswer {
    pub number: u8,
    pub entry: Entry,
}

#[derive(Clone, Copy, Debug, PartialEq, Eq)]
#[repr(C)]
pub struct FindAnswer {
    pub number: u8,
    pub place: u64,
    pub entry: Entry,
}

#[derive(Clone, Copy, Debug, PartialEq, Eq)]
#[repr(C)]
pub struct QuickFindAnswer {
    pub number: u8,
    pub place: u64,
    pub entry: Entry,
    pub looked: u16,
}

#[derive(Clone, Copy, Debug, PartialEq, Eq)]
#[repr(C)]
pub struct BlockAnswer {
    pub number: u8,
    pub block: u16,
}

#[derive(Clone, Copy, Debug, PartialEq, Eq)]
#[repr(C)]
pub struct ReadAnswer {
    pub number: u8,
    pub count: usize,
}

/// Declares each call on an image, and the same call on a wrapped file.
macro_rules! declare {
    ($($bare:ident, $wrapped:ident $parameters:tt -> $answer:ty;)*) => {
        extern "C" {
            $(
                fn $bare $parameters -> $answer;
                fn $wrapped $parameters -> $answer;
            )*
        }
    };
}

#[rustfmt::skip]
declare! {
    mfs_check, mfs_wrapped_check(file: *const u8, file_length: usize) -> CheckAnswer;
    mfs_entry, mfs_wrapped_entry(file: *const u8, file_length: usize, place: u64) -> EntryAnswer;
    mfs_find, mfs_wrapped_find(file: *const u8, file_length: usize, name: *const u8, name_length: usize) -> FindAnswer;
    mfs_block, mfs_wrapped_block(file: *const u8, file_length: usize, name: *const u8, name_length: usize, fork: u8,
        place: u64) -> BlockAnswer;
    mfs_read, mfs_wrapped_read(file: *const u8, file_length: usize, name: *const u8, name_length: usize, fork: u8,
        offset: u64, buffer: *mut u8, buffer_length: usize) -> ReadAnswer;
    mfs_create, mfs_wrapped_create(file: *mut u8, file_length: usize, name: *const u8, name_length: usize,
        finder: *const u8, created: u32, changed: u32) -> u8;
    mfs_write, mfs_wrapped_write(file: *mut u8, file_length: usize, name: *const u8, name_length: usize, fork: u8,
        offset: u64, bytes: *const u8, bytes_length: usize, changed: u32) -> u8;
    mfs_cut, mfs_wrapped_cut(file: *mut u8, file_length: usize, name: *const u8, name_length: usize, fork: u8,
        size: u64, changed: u32) -> u8;
    mfs_delete, mfs_wrapped_delete(file: *mut u8, file_length: usize, name: *const u8, name_length: usize) -> u8;
}

#[rustfmt::skip]
extern "C" {
    fn mfs_rename(image: *mut u8, image_length: usize, name: *const u8, name_length: usize, new_name: *const u8,
        new_name_length: usize, changed: u32) -> u8;
    fn mfs_quick_find(image: *const u8, image_length: usize, name: *const u8, name_length: usize) -> QuickFindAnswer;
    fn mfs_wrap(image: *const u8, image_length: usize, name: *const u8, name_length: usize, format: u8,
        buffer: *mut u8, buffer_length: usize) -> u8;
}

/// The call on an image, or the one on a wrapped file.
macro_rules! call {
    ($form:expr, $bare:ident, $wrapped:ident) => {
        match $form {
            Form::Bare => $bare,
            Form::Wrapped => $wrapped,
        }
    };
}

pub fn check(form: Form, file: &[u8]) -> CheckAnswer {
    let call = call!(form, mfs_check, mfs_wrapped_check);
    unsafe { call(file.as_ptr(), file.len()) }
}

pub fn entry(form: Form, file: &[u8], place: u64) -> EntryAnswer {
    let call = call!(form, mfs_entry, mfs_wrapped_entry);
    unsafe { call(file.as_ptr(), file.len(), place) }
}

pub fn find(form: Form, file: &[u8], name: &[u8]) -> FindAnswer {
    let call = call!(form, mfs_find, mfs_wrapped_find);
    unsafe { call(file.as_ptr(), file.len(), name.as_ptr(), name.len()) }
}

pub fn block(form: Form, file: &[u8], name: &[u8], fork: u8, place: u64) -> BlockAnswer {
    let call = call!(form, mfs_block, mfs_wrapped_block);
    unsafe { call(file.as_ptr(), file.len(), name.as_ptr(), name.len(), fork, place) }
}

#[rustfmt::skip]
pub fn read(form: Form, file: &[u8], name: &[u8], fork: u8, offset: u64, buffer: &mut [u8]) -> ReadAnswer {
    let call = call!(form, mfs_read, mfs_wrapped_read);
    unsafe {
        call(file.as_ptr(), file.len(), name.as_ptr(), name.len(), fork, offset, buffer.as_mut_ptr(),
            buffer.len())
    }
}

#[rustfmt::skip]
pub fn create(form: Form, file: &mut [u8], name: &[u8], finder: &[u8; 16], created: u32, changed: u32) -> u8 {
    let call = call!(form, mfs_create, mfs_wrapped_create);
    unsafe { call(file.as_mut_ptr(), file.len(), name.as_ptr(), name.len(), finder.as_ptr(), created, changed) }
}

#[rustfmt::skip]
pub fn write(form: Form, file: &mut [u8], name: &[u8], fork: u8, offset: u64, bytes: &[u8], changed: u32) -> u8 {
    let call = call!(form, mfs_write, mfs_wrapped_write);
    unsafe {
        call(file.as_mut_ptr(), file.len(), name.as_ptr(), name.len(), fork, offset, bytes.as_ptr(),
            bytes.len(), changed)
    }
}

#[rustfmt::skip]
pub fn cut(form: Form, file: &mut [u8], name: &[u8], fork: u8, size: u64, changed: u32) -> u8 {
    let call = call!(form, mfs_cut, mfs_wrapped_cut);
    unsafe { call(file.as_mut_ptr(), file.len(), name.as_ptr(), name.len(), fork, size, changed) }
}

pub fn delete(form: Form, file: &mut [u8], name: &[u8]) -> u8 {
    let call = call!(form, mfs_delete, mfs_wrapped_delete);
    unsafe { call(file.as_mut_ptr(), file.len(), name.as_ptr(), name.len()) }
}

#[rustfmt::skip]
pub fn rename(image: &mut [u8], name: &[u8], new: &[u8], changed: u32) -> u8 {
    unsafe {
        mfs_rename(image.as_mut_ptr(), image.len(), name.as_ptr(), name.len(), new.as_ptr(), new.len(), changed)
    }
}

pub fn quick_find(image: &[u8], name: &[u8]) -> QuickFindAnswer {
    unsafe { mfs_quick_find(image.as_ptr(), image.len(), name.as_ptr(), name.len()) }
}

#[rustfmt::skip]
pub fn wrap(image: &[u8], name: &[u8], format: u8, buffer: &mut [u8]) -> u8 {
    unsafe {
        mfs_wrap(image.as_ptr(), image.len(), name.as_ptr(), name.len(), format, buffer.as_mut_ptr(), buffer.len())
    }
}

/// Room for glibc's pthread_attr_t, which has 56 bytes on x86-64.
#[repr(C, align(16))]
struct Attributes([u8; 128]);

#[rustfmt::skip]
extern "C" {
    fn pthread_attr_init(attributes: *mut Attributes) -> i32;
    fn pthread_attr_setstack(attributes: *mut Attributes, low: *mut c_void, size: usize) -> i32;
    fn pthread_attr_destroy(attributes: *mut Attributes) -> i32;
    fn pthread_create(thread: *mut usize, attributes: *const Attributes,
        start: extern "C" fn(*mut c_void) -> *mut c_void, argument: *mut c_void) -> i32;
    fn pthread_join(thread: usize, result: *mut *mut c_void) -> i32;
}

struct Job<'a> {
    call: &'a mut (dyn FnMut() + Send),
}

extern "C" fn start(argument: *mut c_void) -> *mut c_void {
    // Safe: `run_on` passes a job that lives until the thread is joined.
    let job = unsafe { &mut *argument.cast::<Job>() };
    (job.call)();
    std::ptr::null_mut()
}

/// Runs a call in a thread that has this memory, which begins at a page, for its stack.
pub fn run_on(stack: &mut [u8], call: &mut (dyn FnMut() + Send)) {
    let mut attributes = Attributes([0; 128]);
    let mut thread = 0;
    let mut job = Job { call };
    // Safe: the stack and the job are lent until the thread is joined.
    unsafe {
        assert_eq!(pthread_attr_init(&mut attributes), 0);
        let low = stack.as_mut_ptr().cast();
        assert_eq!(pthread_attr_setstack(&mut attributes, low, stack.len()), 0);
        let argument = (&raw mut job).cast();
        assert_eq!(pthread_create(&mut thread, &attributes, start, argument), 0);
        assert_eq!(pthread_join(thread, std::ptr::null_mut()), 0);
        pthread_attr_destroy(&mut attributes);
    }
}
