//! What a comparison of files went through.

use std::collections::BTreeMap;
use std::fmt;

#[derive(Debug, Default)]
pub struct FileCounts {
    pub files: u64,
    /// By the first line of the answer.
    replies: BTreeMap<String, u64>,
    largest: usize,
    largest_accepted: usize,
}

impl FileCounts {
    pub fn note(&mut self, file: &[u8], answer: &[u8]) {
        let first = answer.split(|&byte| byte == b'\n').next().unwrap_or_default();
        let reply = String::from_utf8_lossy(first).trim_start_matches("A ").to_string();
        self.files += 1;
        self.largest = self.largest.max(file.len());
        if reply == "0" {
            self.largest_accepted = self.largest_accepted.max(file.len());
        }
        *self.replies.entry(reply).or_default() += 1;
    }

    pub fn with_reply(&self, reply: u32) -> u64 {
        self.replies.get(&reply.to_string()).copied().unwrap_or_default()
    }

    pub fn largest_accepted(&self) -> usize {
        self.largest_accepted
    }
}

impl fmt::Display for FileCounts {
    fn fmt(&self, f: &mut fmt::Formatter) -> fmt::Result {
        let replies: Vec<_> = self.replies.iter().map(|(reply, count)| format!("reply {reply}: {count}")).collect();
        writeln!(f, "{} files, {} accepted: {}", self.files, self.with_reply(0), replies.join(", "))?;
        write!(f, "the largest has {} bytes, the largest accepted {}", self.largest, self.largest_accepted)
    }
}
