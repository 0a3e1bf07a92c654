//! The codes of income that 004 lists: a 309 names one, and so does a wage
//! reference (document 02, W4).

pub const CODES: [u16; 55] = [
    100, 110, 120, 130, 140, 150, 160, 170, 180, 190, 191, 200, 210, 220, 230, 240, 250, 260, 270,
    280, 290, 300, 310, 320, 330, 340, 350, 360, 361, 370, 380, 390, 400, 410, 420, 430, 431, 432,
    433, 440, 441, 450, 451, 500, 510, 600, 610, 620, 621, 630, 640, 650, 660, 690, 699,
];

static LISTED: [bool; 1000] = {
    let mut listed = [false; 1000];
    let mut k = 0;
    while k < CODES.len() {
        listed[CODES[k] as usize] = true;
        k += 1;
    }
    listed
};

pub fn is_code(number: u64) -> bool {
    number < 1000 && LISTED[number as usize]
}
