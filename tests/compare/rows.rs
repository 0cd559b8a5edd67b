//! Texts with the answers that the orders give them, written down by hand: a source beside the Rust.
use crate::calls::Answer;
use crate::document::{FIELD, FUNCTION, HEAD, LENGTH, NAME};
use crate::marks::UNMARKED;
use crate::original::{GENERAL, KIND};

/// What is due of a call.
pub enum Due {
    /// A function's record with this mutability.
    Stated(u16),
    /// A field's record of so many bytes, with mark 0 and an empty name.
    Kind(usize),
    /// A refusal's number and position.
    Refused(u32, usize),
}
use Due::{Kind, Refused, Stated};

impl Due {
    /// Whether this was answered, and written where there is something to write.
    pub fn is_met(&self, answer: Answer, written: &[u8]) -> bool {
        match *self {
            Stated(mutability) => {
                let front = [FUNCTION.to_le_bytes(), mutability.to_le_bytes()].concat();
                answer.0 == 0 && written[LENGTH..].starts_with(&front)
            }
            Kind(length) => {
                let empty = [&(HEAD as u32).to_le_bytes()[..], &NAME.to_le_bytes()].concat();
                let front = [&FIELD.to_le_bytes()[..], &UNMARKED.to_le_bytes(), &empty].concat();
                answer == (0, length) && written[LENGTH..].starts_with(&front)
            }
            Refused(number, position) => answer == (number, position),
        }
    }
}

pub const PURE: u16 = 0;
pub const VIEW: u16 = 1;
const NOT_STATED: u16 = 2;
pub const PAYABLE: u16 = 3;

/// Order 2.
pub const VISIBILITY: [(&str, Due); 23] = [
    ("function f() external", Stated(NOT_STATED)),
    ("function f()public", Stated(NOT_STATED)),
    ("function f() pure external", Stated(PURE)),
    ("function f() external payable;", Stated(PAYABLE)),
    ("function f() external view returns (uint)", Stated(VIEW)),
    ("function external() external", Stated(NOT_STATED)),
    ("function public(uint public) public", Stated(NOT_STATED)),
    ("function f() external external", Refused(7, 22)),
    ("function f() external  public", Refused(7, 23)),
    ("function f() public public", Refused(7, 20)),
    ("function f() pure external view", Refused(7, 27)),
    ("function f() external pure public", Refused(7, 27)),
    ("function f() pure pure external", Refused(7, 18)),
    ("function f() returns (uint) external", Refused(7, 28)),
    ("function f() external returns (uint) public", Refused(7, 37)),
    ("function f() external;external", Refused(7, 22)),
    ("function f() internal", Refused(7, 13)),
    ("function f() public1", Refused(7, 13)),
    ("function f() externalpure", Refused(7, 13)),
    ("constructor() public", Refused(7, 14)),
    ("event e() external", Refused(7, 10)),
    ("function f() external returns", Refused(1, 29)),
    ("function f() external returns (uin)", Refused(3, 31)),
];

/// Order 4: texts and the full lines of their records.
pub const FULL: [(&str, &str); 12] = [
    (
        "function f ( uint  a , bool ) external view returns ( string memory )",
        "function f(uint256 a,bool) view returns (string memory)",
    ),
    ("function f() returns ()", "function f()"),
    ("function f() public", "function f()"),
    ("constructor ( ) payable ;", "constructor() payable"),
    (
        "event e(uint a, (uint indexed, string memory) indexed t) anonymous",
        "event e(uint256 a,(uint256 indexed,string memory) indexed t) anonymous",
    ),
    (
        "function returns(uint returns) pure returns(bool pure)",
        "function returns(uint256 returns) pure returns (bool pure)",
    ),
    ("constructor((uint a,())[2 ] memory b)", "constructor((uint256 a,())[2] memory b)"),
    ("function f(bytes calldata)payable", "function f(bytes calldata) payable"),
    ("function f(bytes32 calldata)pure", "function f(bytes32 calldata) pure"),
    ("error e( ( ) [ ] [2 ] , ( ) a );", "error e(()[][2],() a)"),
    ("event e(int indexed,int8 indexed a)", "event e(int256 indexed,int8 indexed a)"),
    ("function function(function[1] function)", "function function(function[1] function)"),
];

/// Order 3: texts for the kind call, most of which start with a bracket.
pub fn kind_tuples() -> Vec<(Vec<u8>, Due)> {
    let open = |count| "(".repeat(count);
    let deepest = |inside| [open(32).as_str(), inside, &")".repeat(32)].concat();
    let mut rows: Vec<(Vec<u8>, Due)> = vec![
        ("()".into(), Kind(20)),
        ("(uint)".into(), Kind(42)),
        ("(uint)[2][][0]".into(), Kind(42 + 14 + 6 + 14)),
        ("((uint)[2],bool[])[3]".into(), Kind(20 + (42 + 14) + (20 + 6) + 14)),
        (deepest("").into(), Kind(32 * 20)),
        (deepest("uint").into(), Kind(32 * 20 + 22)),
        (open(32).into(), Refused(13, 0)),
        (open(33).into(), Refused(10, 32)),
        (["(x", &open(32)].concat().into(), Refused(10, 33)),
        (["(é", &open(32)].concat().into(), Refused(10, 34)),
        (["()", &open(33)].concat().into(), Refused(10, 34)),
        (["())))", &open(36)].concat().into(), Refused(10, 40)),
        (["())))", &open(35)].concat().into(), Refused(13, 0)),
        (b"(\xff".to_vec(), Refused(9, 1)),
        ([open(33).as_bytes(), b"\xff"].concat(), Refused(9, 33)),
        (open(4097).into(), Refused(8, 0)),
        (open(4096).into(), Refused(10, 32)),
        (["x", &open(33)].concat().into(), Refused(13, 0)),
        ("uint(".into(), Refused(11, 0)),
    ];
    let unfit = [
        "(uint,)", "(,uint)", "([])", "(uint)[+2]", "(uint)[2 ]", "(uint)[18446744073709551616]",
        "(uint)[2", "()()", "(uint))", "(bytes33)", "(uint12)", "(uint a)", "((uint)a)", "(uint, bool)",
        "(uint) ", "(string memory)", "(é)", " (uint)", "(uint),bool", "(uint),(bool)",
    ];
    rows.extend(unfit.map(|text| (text.into(), Refused(13, 0))));
    rows
}

/// Order 7: calls, and texts with numbers that are plain and that are not.
pub const NUMBERS: [(usize, &str, Due); 30] = [
    (KIND, "uint08", Refused(11, 0)),
    (KIND, "uint[+2]", Refused(11, 0)),
    (KIND, "uint[00]", Refused(11, 0)),
    (KIND, "uint[2][02]", Refused(11, 0)),
    (KIND, "bytes01", Refused(12, 0)),
    (KIND, "bytes[02]", Refused(12, 0)),
    (KIND, "bytes4[01]", Refused(12, 0)),
    (KIND, "bool[02]", Refused(13, 0)),
    (KIND, "address[010]", Refused(13, 0)),
    (KIND, "(uint08)", Refused(13, 0)),
    (KIND, "(uint)[02]", Refused(13, 0)),
    (KIND, "(uint)[2][03]", Refused(13, 0)),
    (KIND, "uint[0]", Kind(22 + 14)),
    (KIND, "uint[10]", Kind(22 + 14)),
    (KIND, "(uint)[0]", Kind(42 + 14)),
    (KIND, "uint[18446744073709551615]", Kind(22 + 14)),
    (KIND, "uint0", Refused(11, 0)),
    (KIND, "uint00", Refused(11, 0)),
    (KIND, "bytes0", Refused(12, 0)),
    (KIND, "x[02]", Refused(13, 0)),
    (KIND, "uint12[02]", Refused(11, 0)),
    (GENERAL, "function f(uint08)", Refused(3, 11)),
    (GENERAL, "function f(bool,uint08)", Refused(3, 15)),
    (GENERAL, "error e(bytes+1)", Refused(3, 8)),
    (GENERAL, "function f((uint)[02])", Refused(3, 17)),
    (GENERAL, "function f((uint)[2][03])", Refused(3, 20)),
    (GENERAL, "function f(((uint)[02]))", Refused(3, 11)),
    (GENERAL, "function f() returns ((bool)[01])", Refused(3, 28)),
    (GENERAL, "function f(uint a08)", Stated(NOT_STATED)),
    (GENERAL, "function f08(uint $0)", Stated(NOT_STATED)),
];
