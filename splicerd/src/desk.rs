//! What every call is lent: the output buffer, the post for connections and the log.

use crate::log::Log;
use splicer::OUT;

/// Answers on their way to connections, in order.
#[derive(Default)]
pub struct Post {
    bytes: Vec<u8>,
    parts: Vec<(usize, usize)>,
}

impl Post {
    /// A message for a connection.
    pub fn add(&mut self, peer: usize, message: &[u8]) {
        self.bytes.extend_from_slice(message);
        self.parts.push((peer, self.bytes.len()));
    }

    pub fn is_empty(&self) -> bool {
        self.parts.is_empty()
    }

    /// Each message with the connection that it is for; then there are none.
    pub fn deliver(&mut self, mut to: impl FnMut(usize, &[u8])) {
        let mut at = 0;
        for (peer, end) in self.parts.drain(..) {
            to(peer, &self.bytes[at..end]);
            at = end;
        }
        self.bytes.clear();
    }
}

pub struct Desk {
    pub out: Box<[u8; OUT]>,
    pub post: Post,
    pub log: Log,
}

impl Desk {
    pub fn new(log: Log) -> Desk {
        Desk { out: Box::new([0; OUT]), post: Post::default(), log }
    }
}

#[cfg(test)]
mod tests {
    use super::*;

    #[test]
    fn post_keeps_its_order() {
        let mut post = Post::default();
        post.add(3, b"ab");
        post.add(1, b"c");
        let mut got = Vec::new();
        post.deliver(|peer, bytes| got.push((peer, bytes.to_vec())));
        assert_eq!(got, [(3, b"ab".to_vec()), (1, b"c".to_vec())]);
        assert!(post.is_empty());
    }
}
