//! What is counted of the day, a row for each hour.

#[derive(Default)]
pub struct Hour {
    pub sent: usize,
    pub lost: usize,
    pub repeated: usize,
    pub overtaken: usize,
    pub answered: usize,
    pub refused: usize,
    pub cut_off: usize,
    pub given_back: usize,
    pub turned_away: usize,
}

impl Hour {
    pub fn print_heading() {
        println!(
            "  hour   sent  lost  repeated  overtaken  answered  refused  no prefix  power cuts  given back  holding"
        );
    }

    pub fn print(&self, hour: u64, holding: usize) {
        println!(
            "  {hour:02}   {:>6} {:>5} {:>9} {:>10} {:>9} {:>8} {:>10} {:>11} {:>11} {holding:>8}",
            self.sent,
            self.lost,
            self.repeated,
            self.overtaken,
            self.answered,
            self.refused,
            self.turned_away,
            self.cut_off,
            self.given_back
        );
    }
}
