//! The eight C functions of `include/loader.h` as the trait that comparisons ask for.

#![allow(unsafe_code)]

use independent::limits::Limits;
use independent::loader::Loader;
use std::ptr;

extern "C" {
    fn loader_fresh(store: *mut u8, store_length: usize) -> u32;
    fn loader_fresh_limits(
        store: *mut u8,
        store_length: usize,
        depth: u8,
        parents: u8,
        code: u16,
    ) -> u32;
    fn loader_create(
        store: *mut u8,
        store_length: usize,
        domain: *const u8,
        domain_length: usize,
    ) -> u32;
    fn loader_create_without_int(
        store: *mut u8,
        store_length: usize,
        domain: *const u8,
        domain_length: usize,
    ) -> u32;
    fn loader_delete(
        store: *mut u8,
        store_length: usize,
        domain: *const u8,
        domain_length: usize,
    ) -> u32;
    fn loader_load(
        store: *mut u8,
        store_length: usize,
        domain: *const u8,
        domain_length: usize,
        file: *const u8,
        file_length: usize,
    ) -> u32;
    fn loader_remove(
        store: *mut u8,
        store_length: usize,
        package: *const u8,
        package_length: usize,
    ) -> u32;
    fn loader_query(
        store: *const u8,
        store_length: usize,
        domain: *const u8,
        domain_length: usize,
        package: *const u8,
        package_length: usize,
        class_number: u8,
        name: u16,
    ) -> u32;
}

/// The static library.
pub struct Library;

/// Where the bytes begin; the header lets it be NULL where there are none.
fn start(bytes: &[u8]) -> *const u8 {
    if bytes.is_empty() {
        ptr::null()
    } else {
        bytes.as_ptr()
    }
}

/// The same for bytes that may be written.
fn start_mut(bytes: &mut [u8]) -> *mut u8 {
    if bytes.is_empty() {
        ptr::null_mut()
    } else {
        bytes.as_mut_ptr()
    }
}

// Sound because each pointer is valid for the length beside it, a store's for
// writing too, and no store overlaps another argument: Rust's borrows say so.
impl Loader for Library {
    fn fresh(&self, store: &mut [u8]) -> u32 {
        unsafe { loader_fresh(start_mut(store), store.len()) }
    }

    fn fresh_limits(&self, store: &mut [u8], limits: Limits) -> u32 {
        let Limits {
            depth,
            parents,
            code,
        } = limits;
        unsafe { loader_fresh_limits(start_mut(store), store.len(), depth, parents, code) }
    }

    fn create(&self, store: &mut [u8], domain: &[u8]) -> u32 {
        unsafe { loader_create(start_mut(store), store.len(), start(domain), domain.len()) }
    }

    fn create_without_int(&self, store: &mut [u8], domain: &[u8]) -> u32 {
        unsafe {
            loader_create_without_int(start_mut(store), store.len(), start(domain), domain.len())
        }
    }

    fn delete(&self, store: &mut [u8], domain: &[u8]) -> u32 {
        unsafe { loader_delete(start_mut(store), store.len(), start(domain), domain.len()) }
    }

    fn load(&self, store: &mut [u8], domain: &[u8], file: &[u8]) -> u32 {
        unsafe {
            loader_load(
                start_mut(store),
                store.len(),
                start(domain),
                domain.len(),
                start(file),
                file.len(),
            )
        }
    }

    fn remove(&self, store: &mut [u8], package: &[u8]) -> u32 {
        unsafe { loader_remove(start_mut(store), store.len(), start(package), package.len()) }
    }

    fn query(&self, store: &mut [u8], domain: &[u8], package: &[u8], class: u8, name: u16) -> u32 {
        unsafe {
            loader_query(
                start_mut(store),
                store.len(),
                start(domain),
                domain.len(),
                start(package),
                package.len(),
                class,
                name,
            )
        }
    }
}
