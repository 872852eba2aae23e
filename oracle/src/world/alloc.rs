//! Calls on the allocator.
use super::rules::{allocator_fine, count_fine, first};
use super::{caught, ok, unknown, Told, World};
use crate::alloc::{peek, Allocator};
use crate::config::MAX_PAGE_COUNT;
use crate::errors::CorruptedError;
use crate::script::{hex, spaced, Fault, Words};
use crate::types::PageID;

pub fn at_start() -> peek::Fields {
    peek::look(&Allocator::new())
}

type Done = Result<String, CorruptedError>;

impl World {
    pub(super) fn alloc_call(&mut self, words: &mut Words) -> Result<Told, Fault> {
        let told = match words.word()? {
            "new" => {
                self.alloc = at_start();
                ok()
            }
            "reset" => {
                let (count, seed) = (words.number()?, words.number_to(u32::MAX.into())?);
                self.reset(count, seed as u32)
            }
            "try_allocate" => self.of_allocator(|a| match a.try_allocate() {
                Some(page) => Ok(format!("ok {}", page.index())),
                None => Ok("none".into()),
            }),
            "try_allocate_each" => {
                let places = words.size_to(MAX_PAGE_COUNT)?;
                self.of_allocator(|a| Ok(handed_out(a, places)))
            }
            "free_each" => self.free_each(&words.pages()?),
            "mark_used" => self.of_page(words.page()?, |a, page| a.mark_used(page).map(|()| "ok".into())),
            "free" => self.of_page(words.page()?, |a, page| a.free(page).map(|()| "ok".into())),
            "is_used" => self.of_page(words.page()?, |a, page| Ok(format!("ok {}", u8::from(a.is_used(page))))),
            "used_pages" => self.of_allocator(|a| Ok(format!("ok {}", a.used_pages()))),
            "free_pages" => self.of_allocator(|a| Ok(format!("ok {}", a.free_pages()))),
            "page_count" => self.of_allocator(|a| Ok(format!("ok {}", a.page_count()))),
            "margin" => self.margin(words.number()?),
            "forge" => {
                self.alloc = forged(words)?;
                ok()
            }
            "state" => Told::Rust(shown(&self.alloc)),
            call => return Err(unknown(call)),
        };
        words.done()?;
        Ok(told)
    }

    fn reset(&mut self, count: u64, seed: u32) -> Told {
        self.on_allocator(first([(7, count_fine(count))]), |a| {
            a.reset(count as usize, seed);
            Ok("ok".into())
        })
    }

    /// The original has no margin: this is its free pages less those wanted.
    fn margin(&mut self, wanted: u64) -> Told {
        let no = first([(7, wanted <= 256), (11, allocator_fine(&self.alloc))]);
        self.on_allocator(no, |a| {
            Ok(format!("ok {}", a.free_pages() as i128 - i128::from(wanted)))
        })
    }

    /// The original has no call for several pages: these are its calls one after the other. A page that is not there ends them, and like
    /// every refusal leaves the allocator as at entry.
    fn free_each(&mut self, pages: &[u16]) -> Told {
        let start = self.alloc;
        let there = pages
            .iter()
            .take_while(|&&page| page != u16::MAX && u64::from(page) < start.count)
            .count();
        let told = self.of_allocator(|a| {
            for &page in &pages[..there] {
                a.free(PageID::from_raw(page).unwrap())?;
            }
            Ok("ok".into())
        });
        match (&told, pages.get(there)) {
            (Told::Rust(text), Some(&page)) if text == "ok" => {
                if !self.raw() {
                    self.alloc = start;
                }
                self.of_page(page, |a, page| a.free(page).map(|()| "ok".into()))
            }
            _ => told,
        }
    }

    fn of_allocator(&mut self, work: impl FnOnce(&mut Allocator) -> Done) -> Told {
        self.on_allocator(first([(11, allocator_fine(&self.alloc))]), work)
    }

    fn of_page(&mut self, page: u16, work: impl FnOnce(&mut Allocator, PageID) -> Done) -> Told {
        let no = first([
            (11, allocator_fine(&self.alloc)),
            (4, u64::from(page) < self.alloc.count),
        ]);
        self.askable(page, 0, |world| {
            world.on_allocator(no, |a| work(a, PageID::from_raw(page).unwrap()))
        })
    }

    /// A refusal leaves the allocator as at entry, but for the raw original.
    fn on_allocator(&mut self, no: Option<u8>, work: impl FnOnce(&mut Allocator) -> Done) -> Told {
        if let Some(no) = self.refused(no) {
            return Told::Rules(format!("no {no}"));
        }
        let mut a = peek::make(&self.alloc);
        let done = caught(|| work(&mut a));
        if self.raw() || matches!(done, Some(Ok(_))) {
            self.alloc = peek::look(&a);
        }
        match done {
            Some(Ok(text)) => Told::Rust(text),
            Some(Err(CorruptedError)) => Told::Rust("no 1".into()),
            None => Told::Panic,
        }
    }
}

/// Pages for so many places, until there is none.
fn handed_out(a: &mut Allocator, places: usize) -> String {
    let pages: Vec<usize> = (0..places)
        .map_while(|_| a.try_allocate())
        .map(|page| page.index())
        .collect();
    format!("ok {}{}", pages.len(), spaced(&pages))
}

fn forged(words: &mut Words) -> Result<peek::Fields, Fault> {
    Ok(peek::Fields {
        count: words.number()?,
        next: words.number()?,
        used: words.number()?,
        marks: words.array()?,
    })
}

fn shown(a: &peek::Fields) -> String {
    format!("ok {} {} {} {}", a.count, a.next, a.used, hex(&a.marks))
}
