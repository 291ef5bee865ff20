//! Stands in for customasm's `diagn`: spans as a file and a byte range, and a report that remembers what it was told, so
//! that the driver can tell one refusal of `resolve_encoding` from another.
use crate::*;

/// The published text hands over and takes back places as `usize`. How customasm's own span holds them, and which spans have no
/// location, is not in it: here every span has one, whatever its places.
#[derive(Copy, Debug, PartialEq)]
pub struct Span {
    pub file_handle: util::FileServerHandle,
    start: usize,
    end: usize,
}

// By hand, so that it can be seen.
impl Clone for Span {
    fn clone(&self) -> Span {
        count::see(|t| t.spans += 1);
        *self
    }
}

impl Span {
    pub fn new(file_handle: util::FileServerHandle, start: usize, end: usize) -> Span {
        Span {
            file_handle,
            start,
            end,
        }
    }

    pub fn location(&self) -> Option<(usize, usize)> {
        Some((self.start, self.end))
    }

    pub fn length(&self) -> usize {
        self.end - self.start
    }
}

#[derive(Clone, Debug)]
pub struct Message {
    pub descr: String,
    pub inner: Vec<Message>,
}

impl Message {
    fn new(descr: impl Into<String>) -> Message {
        Message {
            descr: descr.into(),
            inner: Vec::new(),
        }
    }

    pub fn error_span(descr: impl Into<String>, _span: Span) -> Message {
        Message::new(descr)
    }

    pub fn short_note_span(descr: impl Into<String>, _span: Span) -> Message {
        Message::new(descr)
    }

    /// One message that holds the others.
    pub fn fuse_topmost(msgs: Vec<Message>) -> Message {
        Message {
            descr: String::new(),
            inner: msgs,
        }
    }
}

#[derive(Default)]
pub struct Report {
    /// The fused messages of a refusal.
    pub messages: Vec<Message>,
    /// The candidate notes of a tie.
    pub notes: Vec<Message>,
}

impl Report {
    pub fn new() -> Report {
        Report::default()
    }

    pub fn message(&mut self, msg: Message) {
        self.messages.push(msg);
    }

    pub fn error_span(&mut self, descr: impl Into<String>, span: Span) {
        self.messages.push(Message::error_span(descr, span));
    }

    pub fn push_multiple(&mut self, notes: Vec<Message>) {
        self.notes.extend(notes);
    }

    pub fn push_parent(&mut self, _descr: impl Into<String>, _span: Span) {}

    pub fn push_parent_short_note(&mut self, _descr: impl Into<String>, _span: Span) {}

    pub fn pop_parent(&mut self) {}

    pub fn push_parent_cap(&mut self) {}

    pub fn pop_parent_cap(&mut self) {}

    pub fn wrap_in_parents(&self, msg: Message) -> Message {
        msg
    }

    pub fn stop_at_errors(&self) -> Result<(), ()> {
        if self.messages.is_empty() {
            Ok(())
        } else {
            Err(())
        }
    }
}
