//! Document 01, "Memory lent": five stores and their exact lengths.

use crate::model::Model;
use crate::sheet::Form;

pub const STAGING: usize = 2_048;
pub const STORE: usize = 2_048;
pub const FONT: usize = 2_048;

#[derive(Clone, PartialEq, Eq)]
pub struct Lent {
    pub page: Vec<u8>,
    pub line: Vec<u16>,
    pub staging: Vec<u8>,
    pub store: Vec<u8>,
    pub font: Vec<u8>,
}

impl Lent {
    /// Stores of the model's lengths, with a page of so many bytes.
    pub fn new(model: Model, page_bytes: usize, font: Vec<u8>) -> Lent {
        Lent {
            page: vec![0; page_bytes],
            line: vec![0; model.line_store()],
            staging: vec![0; STAGING],
            store: vec![0; STORE],
            font,
        }
    }

    /// 11 to 15, in order: the first store of a wrong length.
    pub fn refusal(&self, form: Form) -> Option<u8> {
        if self.page.len() != form.page_bytes() {
            Some(11)
        } else if self.line.len() != form.model.line_store() {
            Some(12)
        } else if self.staging.len() != STAGING {
            Some(13)
        } else if self.store.len() != STORE {
            Some(14)
        } else if self.font.len() != FONT {
            Some(15)
        } else {
            None
        }
    }

    /// A blank page of the size that is due.
    pub fn lend_page(&mut self, form: Form) {
        self.page.clear();
        self.page.resize(form.page_bytes(), 0);
    }

    /// Opening a job zeroes all but the font.
    pub fn zero(&mut self) {
        self.page.fill(0);
        self.line.fill(0);
        self.staging.fill(0);
        self.store.fill(0);
    }
}
