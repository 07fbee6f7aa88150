//! What the rounds of one measurement gave, and its line of output, as kv_bench writes it.

/// The rounds of one measurement.
pub struct Series {
    pub group: String,
    pub what: &'static str,
    /// Whose figure it is.
    pub of: &'static str,
    /// How many threads there are beside the writer.
    pub others: usize,
    pub keys: usize,
    pub unit: &'static str,
    pub values: Vec<f64>,
}

impl Series {
    /// Writes the line: group, what, of what, threads beside the writer, keys, the median, the least, and the most, or what so
    /// many percent are not above, in tenths of the unit, the unit.
    pub fn tell_up_to(mut self, percent: usize) {
        self.values.sort_by(f64::total_cmp);
        let Some(last) = self.values.len().checked_sub(1) else {
            return;
        };
        let at = |percent: usize| (10.0 * self.values[(self.values.len() * percent / 100).min(last)]).round() as u64;
        println!(
            "{}\t{}\t{}\t{}\t{}\t{}\t{}\t{}\t{}",
            self.group,
            self.what,
            self.of,
            self.others,
            self.keys,
            at(50),
            at(0),
            at(percent),
            self.unit
        );
    }

    pub fn tell(self) {
        self.tell_up_to(100);
    }
}
