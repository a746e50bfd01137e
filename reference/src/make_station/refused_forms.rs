//! Stored vectors of the converter: the four commands in the nearest forms that are not taken.

use crate::text::Text;

/// 8/14: SPD; a speed has no sign.
const SPD: [&str; 18] = [
    "SPD ",
    "SPD X",
    "SPD X ",
    " SPD X 5",
    "SPD  X 5",
    "SPD X  5",
    "SPD X 5 ",
    "SPD 5",
    "SPD X5",
    "SPD X,Y 5",
    "SPD X 5, Y 5",
    "SPD Z 5",
    "SPD x 5",
    "SPD X -5",
    "SPD X -0",
    "SPD X +5",
    "SPD X 35,000",
    "SPD X 1E3",
];

/// 8/14: INC.
const INC: [&str; 20] = [
    "INC X",
    "INC X ",
    "INC X -",
    "INC X +5",
    "INC X --5",
    "INC X -+5",
    "INC X 5-",
    "INC X - 5",
    "INC  X 5",
    "INC X  5",
    "INC X -5 ",
    "INC X 5,Y 5",
    "INC X,Y 5",
    "INC Z 5",
    "INC y 5",
    "INC X-5",
    "INC X 20,000",
    "INC X 1O0",
    "INC X 1/2",
    "INC X 1:2",
];

/// 8/14: LNI; the words about its comma, and each number.
const LNI: [&str; 31] = [
    "LNI X 1",
    "LNI X 1,",
    "LNI X 1,Y",
    "LNI X 1,Y ",
    "LNI X 1, Y ",
    "LNI X 1 Y 1",
    "LNI X 1Y 1",
    "LNI X 1 ,Y 1",
    "LNI X 1 , Y 1",
    "LNI X 1,  Y 1",
    "LNI X 1,,Y 1",
    "LNI X 1;Y 1",
    "LNI Y 1,X 1",
    "LNI X 1,X 1",
    "LNI Y 1,Y 1",
    "LNI X 1,Z 1",
    "LNI x 1,Y 1",
    "LNI X 1,y 1",
    "LNI X ,Y 1",
    "LNI X,Y 1",
    "LNI X 1,Y 1 ",
    "LNI X 1,Y 1,",
    "LNI X  1,Y 1",
    "LNI X 1, Y  1",
    "LNI X +1,Y 1",
    "LNI X 1,Y +1",
    "LNI X -,Y 1",
    "LNI X 1, Y -",
    "LNI X 1,Y1",
    "LNI X 1A,Y 1",
    "LNI X 1,000,Y 1",
];

/// 8/14: SST.
const SST: [&str; 17] = [
    "SST ",
    "SST X ",
    "SST  X",
    "SST Z",
    "SST x",
    "SST XY",
    "SST X Y",
    "SST Y,X",
    "SST X,X",
    "SST X,",
    "SST ,Y",
    "SST X,  Y",
    "SST X ,Y",
    "SST X,,Y",
    "SST X, Y ",
    "SST X,y",
    "SST X 5",
];

/// 8/14: another form with a number out of range: 27 goes before 29.
const OUT_OF_RANGE_TOO: [&str; 6] =
    ["SPD X -250001", "SPD Z 0", "SPD X 0 ", "INC X +524288", "LNI X 524288,Y", "LNI X 524288,Y 1A"];

/// 8/14: forms that are not taken.
pub(super) fn refused_forms(text: &mut Text) {
    text.heading("the four commands in the nearest forms that are not taken");
    text.ended_commands(&SPD);
    text.ended_commands(&INC);
    text.ended_commands(&LNI);
    text.ended_commands(&SST);
    text.heading("another form goes before a number out of range");
    text.ended_commands(&OUT_OF_RANGE_TOO);
}
