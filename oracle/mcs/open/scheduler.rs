
// Appended by the oracle: what it must see of the private state.

impl Clone for Scheduler {
    fn clone(&self) -> Self {
        Self { events: self.events.clone(), next: self.next }
    }
}

impl Scheduler {
    /// How many events are held.
    pub fn held(&self) -> usize {
        self.events.len()
    }
}
