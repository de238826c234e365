//! Memory that is lent byte for byte, so that a call that writes padding is found out.

use super::*;
use std::marker::PhantomData;
use std::mem::size_of;
use std::ptr::addr_of_mut;

/// Room for a T and a word behind it, aligned to 8, with a pattern in every byte before its fields are written: bytes of padding keep the pattern.
pub struct Lent<T> {
    words: Vec<u64>,
    of: PhantomData<T>,
}

impl<T> Lent<T> {
    /// `put` writes the fields, one by one where T has padding.
    pub fn new(pattern: u8, put: impl FnOnce(*mut T)) -> Lent<T> {
        let words = vec![u64::from_ne_bytes([pattern; 8]); size_of::<T>().div_ceil(8) + 1];
        let mut lent = Lent { words, of: PhantomData };
        put(lent.words.as_mut_ptr().cast());
        lent
    }

    pub fn get(&mut self) -> &mut T {
        unsafe { &mut *self.words.as_mut_ptr().cast() }
    }

    pub fn bytes(&self) -> Vec<u8> {
        unsafe { std::slice::from_raw_parts(self.words.as_ptr().cast(), size_of::<T>()) }.to_vec()
    }

    /// Bytes that are not lent.
    pub fn behind(&self) -> Vec<u8> {
        let all: &[u8] = unsafe { std::slice::from_raw_parts(self.words.as_ptr().cast(), 8 * self.words.len()) };
        all[size_of::<T>()..].to_vec()
    }
}

pub fn lent_board(pattern: u8, b: &Board) -> Lent<Board> {
    Lent::new(pattern, |p: *mut Board| unsafe {
        addr_of_mut!((*p).status).write(b.status);
        addr_of_mut!((*p).counters).write(b.counters);
        addr_of_mut!((*p).ramp).write(b.ramp);
        addr_of_mut!((*p).watts).write(b.watts);
        addr_of_mut!((*p).vars).write(b.vars);
        addr_of_mut!((*p).recovery).write(b.recovery);
        addr_of_mut!((*p).side).write(b.side);
        addr_of_mut!((*p).held).write(b.held);
    })
}

pub fn lent_report(pattern: u8, r: &Report) -> Lent<Report> {
    Lent::new(pattern, |p: *mut Report| unsafe {
        addr_of_mut!((*p).status).write(r.status);
        addr_of_mut!((*p).bits).write(r.bits);
        addr_of_mut!((*p).share).write(r.share);
        addr_of_mut!((*p).recovery).write(r.recovery);
        addr_of_mut!((*p).watts).write(r.watts);
        addr_of_mut!((*p).vars).write(r.vars);
        addr_of_mut!((*p).held).write(r.held);
        addr_of_mut!((*p).side).write(r.side);
    })
}

pub fn lent_explained(pattern: u8, e: &Explained) -> Lent<Explained> {
    let report = lent_report(pattern, &e.report).bytes();
    Lent::new(pattern, |p: *mut Explained| unsafe {
        p.cast::<u8>().copy_from_nonoverlapping(report.as_ptr(), report.len());
        addr_of_mut!((*p).status_rule).write(e.status_rule);
        addr_of_mut!((*p).limit).write(e.limit);
        addr_of_mut!((*p).watts_rule).write(e.watts_rule);
    })
}

/// Settings have no padding.
pub fn lent_settings(pattern: u8, s: &Settings) -> Lent<Settings> {
    Lent::new(pattern, |p: *mut Settings| unsafe { p.write(*s) })
}
