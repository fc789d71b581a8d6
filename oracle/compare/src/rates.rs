//! The 146 LCD rates of document 01: 1008 × n over 1 for 16 to 129 rows, and
//! the oscillator's four frequencies over 1 to 8.

pub const RATES: [(u64, u64); 146] = rates();

const fn rates() -> [(u64, u64); 146] {
    let mut rates = [(0, 0); 146];
    let mut index = 0;
    while index < 114 {
        rates[index] = (1008 * (16 + index as u64), 1);
        index += 1;
    }
    while index < 146 {
        let setting = index - 114;
        rates[index] = (
            [92000, 122000, 147000, 184000][setting / 8],
            setting as u64 % 8 + 1,
        );
        index += 1;
    }
    rates
}
