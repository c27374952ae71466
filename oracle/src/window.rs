//! The window: the last three endpoints since `clear`, oldest first.

use crate::endpoint::Endpoint;

/// What the window's calls answer; 12 is the one refusal.
pub trait Window: Default {
    fn push(&mut self, endpoint: Endpoint);
    /// 0, or 12 when empty.
    fn replace_last(&mut self, endpoint: Endpoint) -> u32;
    fn clear(&mut self);
    fn count(&self) -> usize;
    /// 0 and the endpoint; at or past the count 12 and an endpoint of zeros.
    fn get(&self, at: usize) -> (u32, Endpoint);
}

#[derive(Default)]
pub struct LastThree {
    endpoints: Vec<Endpoint>,
}

impl Window for LastThree {
    fn push(&mut self, endpoint: Endpoint) {
        if self.endpoints.len() == 3 {
            self.endpoints.remove(0);
        }
        self.endpoints.push(endpoint);
    }

    fn replace_last(&mut self, endpoint: Endpoint) -> u32 {
        match self.endpoints.last_mut() {
            Some(last) => {
                *last = endpoint;
                0
            }
            None => 12,
        }
    }

    fn clear(&mut self) {
        self.endpoints.clear();
    }

    fn count(&self) -> usize {
        self.endpoints.len()
    }

    fn get(&self, at: usize) -> (u32, Endpoint) {
        match self.endpoints.get(at) {
            Some(&endpoint) => (0, endpoint),
            None => (12, Endpoint::zero()),
        }
    }
}
