//! Routines as text: request F-1 of document 02, with its readings and refusals 11 and 12.

mod common;

use check_box_reference::{print_text, read_text, TextCounts};
use common::T::{C, R};
use common::*;

const TEXT: &str = "set r2 (r0 ult r1)\nbeqz r2 4\nload r3 r0\nload r4 (r3 add 2)\n";

/// More than the longest program or text of these tests.
const LENT: usize = 200_000;

fn program() -> Vec<Vec<u8>> {
    vec![assign(2, &[R(0), R(1), ULT]), beqz(2, 4), load(3, &[R(0)]), load(4, &[R(3), C(2), ADD])]
}

/// The byte that stands at index i of every output area before a call.
fn filling_byte(index: usize) -> u8 {
    filling(index) as u8
}

fn output(length: usize) -> Vec<u8> {
    (0..length).map(filling_byte).collect()
}

/// Checks that all bytes past the written ones kept their contents, and returns the written ones.
fn written_bytes(after: &[u8], count: usize) -> Vec<u8> {
    assert_eq!(after[count..], output(after.len())[count..], "bytes past those written");
    after[..count].to_vec()
}

/// Reads into an area of that length: the program's bytes and the instruction count.
/// A refusal is checked to leave the area as it was.
fn read_in(text: &[u8], length: usize) -> Result<(Vec<u8>, usize), u32> {
    let mut out = output(length);
    match read_text(text, &mut out) {
        Ok(TextCounts { bytes, instructions }) => Ok((written_bytes(&out, bytes), instructions)),
        Err(number) => {
            assert_eq!(out, output(length));
            Err(number)
        }
    }
}

fn read(text: impl AsRef<[u8]>) -> Result<(Vec<u8>, usize), u32> {
    read_in(text.as_ref(), LENT)
}

/// Prints into an area of that length, with the same check.
fn print_in(job: &[u8], length: usize) -> Result<String, u32> {
    let mut out = output(length);
    match print_text(job, &mut out) {
        Ok(count) => Ok(String::from_utf8(written_bytes(&out, count)).expect("text")),
        Err(number) => {
            assert_eq!(out, output(length));
            Err(number)
        }
    }
}

fn print(program: Vec<Vec<u8>>) -> String {
    print_in(&job(program, 0).bytes(), LENT).expect("accepted")
}

fn assert_reads(text: impl AsRef<[u8]>, program: &[Vec<u8>]) {
    let shown = String::from_utf8_lossy(text.as_ref()).into_owned();
    assert_eq!(read(text), Ok((program.concat(), program.len())), "{shown}");
}

fn assert_refused(text: impl AsRef<[u8]>) {
    let shown = String::from_utf8_lossy(text.as_ref()).into_owned();
    assert_eq!(read(text).err(), Some(11), "{shown}");
}

#[test]
fn the_printed_program() {
    assert_eq!(print(program()), TEXT);
    assert_reads(TEXT, &program());
    assert_eq!(read(TEXT).expect("accepted").0.len(), 28, "S of document 01");
}

#[test]
fn all_words() {
    let text =
        "skip\nset r15 0\nload r1 r2\nstore r3 r4\njmp r5\nbeqz r6 0\ncset r7 r8 r9\nspbarr\n";
    let program = [
        skip(),
        assign(15, &[C(0)]),
        load(1, &[R(2)]),
        store(3, &[R(4)]),
        jmp(&[R(5)]),
        beqz(6, 0),
        conditional(7, &[R(8)], &[R(9)]),
        spbarr(),
    ];
    assert_reads(text, &program);
    assert_eq!(print(program.to_vec()), text);
}

#[test]
fn all_operators() {
    let operators = [ADD, SUB, MUL, AND, OR, XOR, SHL, SHR, EQ, ULT];
    let names = ["add", "sub", "mul", "and", "or", "xor", "shl", "shr", "eq", "ult"];
    for (operator, name) in operators.into_iter().zip(names) {
        let (text, program) = (format!("jmp (r1 {name} 7)\n"), vec![jmp(&[R(1), C(7), operator])]);
        assert_reads(&text, &program);
        assert_eq!(print(program), text);
    }
    for (sign, name) in [(NEG, "neg"), (NOT, "not")] {
        let (text, program) = (format!("jmp {name} r1\n"), vec![jmp(&[R(1), sign])]);
        assert_reads(&text, &program);
        assert_eq!(print(program), text);
    }
}

#[test]
fn all_registers() {
    for register in 0..16 {
        let (text, program) =
            (format!("set r{register} r{register}\n"), vec![assign(register, &[R(register)])]);
        assert_reads(&text, &program);
        assert_eq!(print(program), text);
    }
    for word in ["r16", "r", "R0", "r-1", "r+1", "r 1", "r18446744073709551616", "0", "m0"] {
        assert_refused(format!("set {word} r0"));
        assert_refused(format!("beqz {word} 0"));
    }
    for word in ["r16", "r", "R0", "r 1", "r18446744073709551616", "m0", "x"] {
        assert_refused(format!("jmp {word}"));
    }
}

/// The left operand comes first; a sign belongs to the next operand alone.
#[test]
fn order_of_operands() {
    for (text, tokens) in [
        ("((r1 sub r2) sub r3)", &[R(1), R(2), SUB, R(3), SUB][..]),
        ("(r1 sub (r2 sub r3))", &[R(1), R(2), R(3), SUB, SUB]),
        ("(neg r1 sub r2)", &[R(1), NEG, R(2), SUB]),
        ("neg (r1 sub r2)", &[R(1), R(2), SUB, NEG]),
        ("(r1 sub neg r2)", &[R(1), R(2), NEG, SUB]),
        ("neg not neg 5", &[C(5), NEG, NOT, NEG]),
        ("((r1 eq 2) and not (r3 ult neg r4))", &[R(1), C(2), EQ, R(3), R(4), NEG, ULT, NOT, AND]),
    ] {
        assert_reads(format!("jmp {text}"), &[jmp(tokens)]);
        assert_eq!(print(vec![jmp(tokens)]), format!("jmp {text}\n"));
    }
}

/// The instruction words are spelled exactly, and each has its own fields.
#[test]
fn words_and_fields() {
    for word in ["Skip", "SKIP", "ski", "skipp", "nop", "assign", "mov", "cmov", "barrier", "0"] {
        assert_refused(word);
    }
    for line in [
        "skip 0",
        "skip skip",
        "spbarr r0",
        "set",
        "set r0",
        "set r0 r1 r2",
        "set r0, r1",
        "load r0",
        "store r0",
        "store 5 r0",
        "jmp",
        "jmp r0 r1",
        "jmp skip",
        "beqz",
        "beqz r0",
        "beqz 0 r0",
        "beqz r0 r1",
        "beqz r0 (0 add 0)",
        "beqz r0 neg 0",
        "beqz r0 0 0",
        "cset r0",
        "cset r0 r1",
        "cset r0 r1 r2 r3",
        "(skip)",
        "set (r0) r1",
        "r0",
        "5",
        "0 skip",
        "(",
        ")",
    ] {
        assert_refused(line);
        assert_refused(format!("skip\n{line}\nskip\n"));
    }
}

/// Reading: only byte 0x20 is a blank.
#[test]
fn only_a_space_is_a_blank() {
    assert_reads("   set   r0   (  r1   add   2  )   ", &[assign(0, &[R(1), C(2), ADD])]);
    for byte in (0..=255u8).filter(|byte| !b" \n#".contains(byte)) {
        assert_refused([byte]);
        assert_refused([&[byte][..], b"skip"].concat());
        assert_refused([b"skip", &[byte][..]].concat());
        assert_refused([b"skip ", &[byte][..]].concat());
        assert_refused([b"skip\n", &[byte][..], b"\nskip\n"].concat());
    }
    for byte in [b'\t', b'\r', 0x0B, 0x0C, 0x00, 0xA0] {
        assert_refused([b"set", &[byte][..], b"r0 r1"].concat());
        assert_refused([b"set r0 (r1", &[byte][..], b"add r2)"].concat());
    }
    assert_refused("skip\r\nskip\r\n");
}

/// Reading: a remark may hold any byte but newline.
#[test]
fn remarks() {
    let any_bytes: Vec<u8> = (0..=255).filter(|&byte| byte != b'\n').collect();
    assert_reads([b"skip #", &any_bytes[..], b"\nspbarr"].concat(), &[skip(), spbarr()]);
    assert_reads([b"#", &any_bytes[..], b"\nspbarr"].concat(), &[spbarr()]);
    assert_reads("skip#remark", &[skip()]);
    assert_reads("jmp 5#0\n", &[jmp(&[C(5)])]);
    assert_reads("jmp (r0 add r1)## skip # spbarr\n", &[jmp(&[R(0), R(1), ADD])]);
    assert_refused("jmp #5\n");
    assert_refused("jmp (r0 # add r1)");
    assert_refused("jmp (r0 add r1 #)");
    assert_refused("sk#ip");
}

/// A line ends at a newline or the text's end, and so does a remark.
#[test]
fn the_end_of_the_text() {
    for text in ["skip", "skip\n", "skip\n\n", "skip #", "skip # remark", "skip\n# remark", "skip "]
    {
        assert_reads(text, &[skip()]);
    }
    assert_refused("jmp (r0 add r1");
    assert_refused("jmp (r0 add");
    assert_refused("jmp (");
    assert_refused("jmp neg");
}

/// One instruction at most stands on a line, and it stands on one line.
#[test]
fn one_line_one_instruction() {
    assert_refused("skip spbarr");
    assert_refused("jmp r0 skip");
    assert_refused("jmp (r0 add r1) skip");
    assert_refused("set r0\nr1");
    assert_refused("set\nr0 r1");
    assert_refused("jmp (r0\nadd r1)");
    assert_refused("cset r0 r1\nr2");
    assert_refused("jmp neg\nr0");
}

/// Reading: blank lines and remark lines are no labels.
#[test]
fn blank_lines_have_no_label() {
    let program = [beqz(0, 2), skip(), beqz(0, 0)];
    assert_reads("\n  \n# first\nbeqz r0 2\n\n#\nskip\n   # third\nbeqz r0 0\n\n", &program);
    // The label 2 would be the next one if the blank line had one, and 3 would be allowed.
    assert_refused("\nbeqz r0 1\nskip\n");
    assert_reads("\nbeqz r0 2\nskip\n", &[beqz(0, 2), skip()]);
    assert_refused("\nbeqz r0 3\nskip\n");
}

/// No instruction is 11.
#[test]
fn no_instruction() {
    for text in ["", "\n", "\n\n\n", " ", "   \n  ", "#", "# skip", "# skip\n#\n"] {
        assert_refused(text);
    }
}

/// Reading: these operands are 11.
#[test]
fn operands_outside_the_rules() {
    for operand in [
        "(r0)",
        "1 add 2",
        "neg5",
        "notr0",
        "r00",
        "01",
        "-1",
        "+1",
        "1.0",
        "1_000",
        "0x10",
        "()",
        "((r0 add r1))",
        "(r0 add r1 add r2)",
        "(r0 r1)",
        "(r0 add)",
        "(add r1)",
        "(add r0 r1)",
        "(r0 neg r1)",
        "(r0 add r1))",
        "((r0 add r1)",
        "(r0 add r1(",
        "(r0 add r1 r2",
        "(r0 add r1 add",
        "(r0 add r1]",
        "(r0 ( r1)",
        "(r0 ) r1)",
        "(r0 ADD r1)",
        "(r0 + r1)",
        "(r0 plus r1)",
        "neg",
        "neg neg",
        "add",
        "r0 neg",
        "(neg (r0) add 1)",
        "[r0 add r1]",
    ] {
        assert_refused(format!("jmp {operand}"));
        assert_refused(format!("set r0 {operand}"));
        assert_refused(format!("cset r0 r1 {operand}"));
    }
}

/// Spaces must stand between two words or numbers.
#[test]
fn words_without_a_space() {
    for line in [
        "setr0 r1",
        "set r0r1",
        "set r05",
        "jmp5",
        "jmpr0",
        "jmp (r0add r1)",
        "jmp (r0 addr1)",
        "jmp (5add 1)",
        "jmp (r0 add1)",
        "jmp negneg r0",
        "beqz r00",
        "cset r0 r1r2",
        "s kip",
        "jmp r 0",
        "jmp 1 0",
        "jmp (r0 a dd r1)",
    ] {
        assert_refused(line);
    }
}

/// Reading: no space is needed beside a bracket.
#[test]
fn brackets_without_a_space() {
    let program = [conditional(0, &[R(1), C(2), EQ], &[R(3), C(4), ADD])];
    assert_reads("cset r0(r1 eq 2)(r3 add 4)", &program);
    assert_reads("cset r0 ( r1 eq 2 ) ( r3 add 4 ) ", &program);
    assert_reads("jmp not(r1 add 2)", &[jmp(&[R(1), C(2), ADD, NOT])]);
    assert_reads("jmp(r1 add 2)", &[jmp(&[R(1), C(2), ADD])]);
    let sum = [R(1), C(2), ADD, R(3), C(4), ADD, MUL];
    assert_reads("jmp((r1 add 2)mul(r3 add 4))", &[jmp(&sum)]);
    assert_reads("cset r0(r1 eq 2)r3", &[conditional(0, &[R(1), C(2), EQ], &[R(3)])]);
}

/// Reading: a sign prints with one space after it, also before a bracket.
#[test]
fn a_sign_before_a_bracket() {
    assert_eq!(print(vec![jmp(&[R(1), C(2), ADD, NOT])]), "jmp not (r1 add 2)\n");
    assert_eq!(print(vec![jmp(&[R(1), NEG, NEG])]), "jmp neg neg r1\n");
    let program = vec![conditional(0, &[R(1), C(2), EQ], &[R(3), NOT])];
    assert_eq!(print(program), "cset r0 (r1 eq 2) not r3\n");
}

/// Reading: deep nesting is 11, without deep recursion and in linear time.
#[test]
fn deep_nesting() {
    for depth in [17, 257, 16_384, 1_000_000] {
        assert_refused(format!("jmp {}", "(".repeat(depth)));
        assert_refused(format!("jmp {}r0", "(".repeat(depth)));
        assert_refused(format!("jmp {}r0{}", "(".repeat(depth), " add r1)".repeat(depth)));
        assert_refused(format!("jmp {}r0{}", "(r1 add ".repeat(depth), ")".repeat(depth)));
        assert_refused(format!("jmp {}", ")".repeat(depth)));
        assert_refused(format!("jmp {}r0", "neg ".repeat(depth)));
        assert_refused(format!("jmp {}", "neg ".repeat(depth)));
        assert_refused(format!("jmp {}", "not(".repeat(depth)));
    }
    // Token counts whose lowest byte is 1 and 16.
    for signs in [256, 271, 65_536] {
        assert_refused(format!("jmp {}r0", "neg ".repeat(signs)));
    }
}

#[test]
fn long_lines() {
    let million = 1_000_000;
    assert_reads(format!("{}skip", " ".repeat(million)), &[skip()]);
    assert_reads(format!("skip{}", " ".repeat(million)), &[skip()]);
    assert_reads(format!("skip#{}", "x".repeat(million)), &[skip()]);
    assert_reads(format!("{}skip", "\n".repeat(million)), &[skip()]);
    assert_refused("x".repeat(million));
    assert_refused(format!("jmp {}", "1".repeat(million)));
    assert_refused(format!("jmp {}1", "0".repeat(million)));
    assert_refused(format!("jmp r{}", "1".repeat(million)));
    assert_refused("skip ".repeat(million));
    assert_refused("skip\n".repeat(million));
}

#[test]
fn token_count() {
    let signs = |count: usize| format!("jmp {}r0", "not ".repeat(count));
    let postfix = |count: usize| jmp(&[vec![R(0)], vec![NOT; count]].concat());
    assert_reads(signs(15), &[postfix(15)]);
    assert_eq!(print(vec![postfix(15)]), signs(15) + "\n");
    assert_refused(signs(16));
    // A constant is one token; each expression of a conditional assignment has its own count.
    assert_reads(
        format!("jmp {}5", "neg ".repeat(15)),
        &[jmp(&[vec![C(5)], vec![NEG; 15]].concat())],
    );
    let sixteen = [vec![R(0)], vec![NEG; 15]].concat();
    let text = format!("cset r1 {0}r0 {0}r0", "neg ".repeat(15));
    assert_reads(text, &[conditional(1, &sixteen, &sixteen)]);
    assert_refused(format!("cset r1 r0 {}r0", "neg ".repeat(16)));
    assert_refused(format!("cset r1 {}r0 r0", "neg ".repeat(16)));
}

#[test]
fn values_held() {
    let to_the_right = |values: usize| {
        format!("jmp {}r1{}", "(r1 add ".repeat(values - 1), ")".repeat(values - 1))
    };
    let eight = [vec![R(1); 8], vec![ADD; 7]].concat();
    assert_reads(to_the_right(8), &[jmp(&eight)]);
    assert_eq!(print(vec![jmp(&eight)]), to_the_right(8) + "\n");
    assert_refused(to_the_right(9));
    // Nine operands have eight operators, so that 17 tokens refuse them in any order.
    let to_the_left = |values: usize| {
        format!("jmp {}r1{}", "(".repeat(values - 1), " add r1)".repeat(values - 1))
    };
    let two_at_a_time = [vec![R(1)], [R(1), ADD].repeat(7)].concat();
    assert_reads(to_the_left(8), &[jmp(&two_at_a_time)]);
    assert_refused(to_the_left(9));
}

#[test]
fn constants() {
    for value in [0, 1, 9, 10, 255, 256, 1 << 63, u64::MAX - 1, u64::MAX] {
        let (text, program) = (format!("jmp {value}\n"), vec![jmp(&[C(value)])]);
        assert_reads(&text, &program);
        assert_eq!(print(program), text);
    }
    for constant in ["18446744073709551616", "18446744073709551620", "99999999999999999999"] {
        assert_refused(format!("jmp {constant}"));
    }
    for constant in ["00", "01", "000", "018446744073709551615", "184467440737095516150"] {
        assert_refused(format!("jmp {constant}"));
    }
}

/// Reading: n for test 6 is the number of instructions read.
#[test]
fn labels() {
    let refused = |text: String| read(text).err().unwrap_or(0);
    let first = |label: u64| refused(format!("beqz r0 {label}\nskip\nskip\n"));
    assert_eq!([first(0), first(1), first(2), first(3), first(4)], [0, 11, 0, 0, 11]);
    let last = |label: u64| refused(format!("skip\nskip\nbeqz r0 {label}\n"));
    assert_eq!([last(0), last(1), last(2), last(3), last(4)], [0, 0, 0, 11, 11]);
    // Labels that would be allowed modulo 2^16 or 2^32, or that are no numbers of the rules.
    for label in [65_535, 65_536, 65_538, 1 << 32, (1 << 32) + 2, u64::MAX] {
        assert_eq!(first(label), 11);
    }
    for label in ["02", "00", "-2", "r2", "end", "18446744073709551616", "18446744073709551618"] {
        assert_refused(format!("beqz r0 {label}\nskip\nskip\n"));
    }
    let backwards = format!("{}beqz r0 0\n", "skip\n".repeat(511));
    assert_eq!(read(&backwards).map(|(_, count)| count), Ok(512));
    let to_the_end = format!("beqz r0 512\n{}", "skip\n".repeat(511));
    assert_eq!(read(&to_the_end).map(|(bytes, _)| bytes[..4].to_vec()), Ok(vec![5, 0, 0, 2]));
    assert_refused(format!("beqz r0 512\n{}", "skip\n".repeat(510)));
}

#[test]
fn instruction_count() {
    assert_reads("skip\n".repeat(512), &vec![skip(); 512]);
    assert_refused("skip\n".repeat(513));
    assert_refused(format!("{}skip", "skip\n".repeat(512)));
    // Lines without an instruction don't count.
    assert_reads("skip # one\n\n# two\n".repeat(512), &vec![skip(); 512]);
    assert_eq!(print(vec![skip(); 512]), "skip\n".repeat(512));
}

/// Reading: a program longer than 16,384 bytes is read.
#[test]
fn a_program_too_long_for_a_job() {
    let operand = "(1 add ".repeat(7) + "neg 1" + &")".repeat(7);
    let tokens = [vec![C(1); 8], vec![NEG], vec![ADD; 7]].concat();
    let instruction = conditional(0, &tokens, &tokens);
    assert_eq!(instruction.len(), 164);
    let text = format!("cset r0 {operand} {operand}\n");
    for count in [99, 100, 512] {
        assert_reads(text.repeat(count), &vec![instruction.clone(); count]);
    }
}

#[test]
fn refusal_12_of_reading() {
    let bytes = program().concat();
    assert_eq!(read_in(TEXT.as_bytes(), 28), Ok((bytes.clone(), 4)));
    assert_eq!(read_in(TEXT.as_bytes(), 29), Ok((bytes, 4)));
    assert_eq!(read_in(TEXT.as_bytes(), 27), Err(12));
    assert_eq!(read_in(TEXT.as_bytes(), 0), Err(12));
    // 12 is tested last.
    for text in ["", "jmp", "beqz r0 1", "jmp r16", "jmp 18446744073709551616"] {
        assert_eq!(read_in(text.as_bytes(), 0), Err(11));
    }
    assert_eq!(read_in("skip\n".repeat(513).as_bytes(), 0), Err(11));
    assert_eq!(read_in("skip\n".repeat(512).as_bytes(), 511), Err(12));
    assert_eq!(read_in(format!("{TEXT}beqz r0 9\n").as_bytes(), 1), Err(11));
}

#[test]
fn refusal_12_of_printing() {
    let bytes = job(program(), 4).bytes();
    assert_eq!(print_in(&bytes, TEXT.len()), Ok(TEXT.to_string()));
    assert_eq!(print_in(&bytes, TEXT.len() + 1), Ok(TEXT.to_string()));
    assert_eq!(print_in(&bytes, TEXT.len() - 1), Err(12));
    assert_eq!(print_in(&bytes, 0), Err(12));
}

/// Printing refuses by 1 to 8 as a run does, before 12.
#[test]
fn refusals_of_the_job() {
    let trailer_zero = {
        let mut bytes = job(vec![skip()], 0).bytes();
        let zero = bytes.len() - 6;
        bytes[zero] = 1;
        bytes
    };
    let longer = [vec![0], job(vec![skip()], 0).bytes()].concat();
    let public_bit = JobParts { public: vec![16], ..job(vec![skip()], 0) };
    for (bytes, number) in [
        (Vec::new(), 1),
        (vec![0; 16_385], 1),
        (trailer_zero, 2),
        (longer, 3),
        (job(vec![vec![8]], 0).bytes(), 4),
        (job(vec![jmp(&[ADD])], 0).bytes(), 5),
        (job(vec![beqz(0, 1)], 0).bytes(), 6),
        (job(vec![vec![0, 0]], 0).bytes(), 7),
        (public_bit.bytes(), 8),
    ] {
        assert_eq!(refusal_of(&bytes), number);
        assert_eq!(print_in(&bytes, LENT), Err(number));
        assert_eq!(print_in(&bytes, 0), Err(number));
    }
}

/// A xorshift generator, so that each test makes the same texts every time.
struct Random(u64);

impl Random {
    fn next(&mut self) -> u64 {
        self.0 ^= self.0 << 13;
        self.0 ^= self.0 >> 7;
        self.0 ^= self.0 << 17;
        self.0
    }

    fn below(&mut self, limit: usize) -> usize {
        ((self.next() >> 16) % limit as u64) as usize
    }

    fn operand(&mut self) -> T {
        match self.below(4) {
            0 => C(self.next()),
            1 => C(self.below(3) as u64),
            _ => R(self.below(16) as u8),
        }
    }

    /// Any expression that keeps the postfix rule; some have all 16 tokens.
    fn expression(&mut self) -> Vec<T> {
        let length = 1 + self.below(16);
        let mut tokens = vec![self.operand()];
        let mut held = 1;
        // One token more leaves as many as are needed to join the values held.
        while tokens.len() + held < length {
            match self.below(3) {
                0 => {
                    tokens.push(self.operand());
                    held += 1;
                }
                1 if held > 1 => {
                    tokens.push(T::Op(19 + self.below(10) as u8));
                    held -= 1;
                }
                _ => tokens.push(T::Op(17 + self.below(2) as u8)),
            }
        }
        tokens.extend((1..held).map(|_| T::Op(19 + self.below(10) as u8)));
        tokens
    }

    fn instruction(&mut self, own: usize, n: usize) -> Vec<u8> {
        let register = self.below(16) as u8;
        match self.below(8) {
            0 => skip(),
            1 => assign(register, &self.expression()),
            2 => load(register, &self.expression()),
            3 => store(register, &self.expression()),
            4 => jmp(&self.expression()),
            5 => {
                let label = self.below(n);
                beqz(register, (if label > own { label + 1 } else { label }) as u16)
            }
            6 => conditional(register, &self.expression(), &self.expression()),
            _ => spbarr(),
        }
    }

    fn program(&mut self) -> Vec<Vec<u8>> {
        let n = 1 + self.below(12);
        (0..n).map(|own| self.instruction(own, n)).collect()
    }
}

/// The text with more spaces and remarks, and without those spaces that a bracket makes needless.
fn spaced_anew(text: &str, random: &mut Random) -> String {
    let mut spaced = String::new();
    let mut last = '\n';
    for (index, byte) in text.char_indices() {
        let next = text[index + 1..].chars().next().unwrap_or('\n');
        let needless = byte == ' ' && ("()".contains(last) || "()".contains(next));
        if "() \n".contains(byte) {
            spaced.push_str(&" ".repeat(random.below(3)));
        }
        if byte == '\n' && random.below(3) == 0 {
            spaced.push_str("# (remark) skip\n \n#");
        }
        if !needless {
            spaced.push(byte);
        }
        last = byte;
    }
    spaced
}

const TEXTS: usize = 20_000;

/// Reading a printed text restores the program's bytes, also with the spaces changed.
#[test]
fn reading_restores_what_was_printed() {
    let mut random = Random(1);
    for _ in 0..TEXTS {
        let program = random.program();
        let mut out = output(8_192);
        let length = print_text(&job(program.clone(), 0).bytes(), &mut out).expect("accepted");
        let text = String::from_utf8(written_bytes(&out, length)).expect("text");
        let expected = Ok((program.concat(), program.len()));
        assert_eq!(read_in(text.as_bytes(), 4_096), expected, "{text}");
        let spaced = spaced_anew(&text, &mut random);
        assert_eq!(read_in(spaced.as_bytes(), 4_096), expected, "{spaced}");
    }
}

/// What is read of any text is a program that a job may have, and printing it restores it.
#[test]
fn what_is_read_is_a_program() {
    let parts = [
        "skip", "set", "jmp", "beqz", "cset", " ", " ", " ", " r1", " r2", " 0", " 7", " neg",
        " add ", " eq ", "(", "(", ")", ")", "\n", "\n", "#", "0", "r", "x", "\t",
    ];
    let mut random = Random(2);
    let (mut accepted, mut refused) = (0, 0);
    for _ in 0..10 * TEXTS {
        let text: String = (0..1 + random.below(12)).map(|_| parts[random.below(26)]).collect();
        match read_in(text.as_bytes(), 4_096) {
            Ok((bytes, instructions)) => {
                let mut program = vec![bytes.clone()];
                program.resize(instructions, Vec::new());
                let printed = print_in(&job(program, 0).bytes(), 4_096).expect("accepted");
                assert_eq!(read_in(printed.as_bytes(), 4_096), Ok((bytes, instructions)));
                accepted += 1;
            }
            Err(number) => {
                assert_eq!(number, 11);
                refused += 1;
            }
        }
    }
    assert!(accepted > 500 && refused > 500, "{accepted} accepted, {refused} refused");
}
