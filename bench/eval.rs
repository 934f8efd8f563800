// The peer of `bench_layouts eval N`: the same expression as a tree of boxes, walked over i128 with checked arithmetic.
use std::process::ExitCode;

#[derive(Clone, Copy)]
enum Fault {
    Overflow,
    DivideByZero,
}

#[allow(dead_code)]
#[derive(Clone, Copy)]
enum BinOp {
    Add,
    Sub,
    Mul,
    Div,
    Rem,
    Min,
    Max,
    Eq,
    Ne,
    Lt,
    Le,
    Gt,
    Ge,
    And,
    Or,
}

#[allow(dead_code)]
enum Expr {
    Number(i128),
    Leaf(usize),
    Index(usize),
    Neg(Box<Expr>),
    Not(Box<Expr>),
    Binary {
        op: BinOp,
        left: Box<Expr>,
        right: Box<Expr>,
    },
}

struct Sample {
    x: i64,
    y: i64,
    z: i64,
    w: i64,
}

impl Sample {
    fn of_row(row: u32) -> Sample {
        let number = i64::from(row);
        Sample {
            x: number,
            y: 2 * number + 1,
            z: number,
            w: -number,
        }
    }

    fn read(&self, leaf: usize) -> i128 {
        i128::from(match leaf {
            0 => self.x,
            1 => self.y,
            2 => self.z,
            _ => self.w,
        })
    }
}

fn eval(expr: &Expr, row: &Sample, index: &[u64]) -> Result<i128, Fault> {
    match expr {
        Expr::Number(number) => Ok(*number),
        Expr::Leaf(leaf) => Ok(row.read(*leaf)),
        Expr::Index(dimension) => Ok(i128::from(index[*dimension])),
        Expr::Neg(inner) => eval(inner, row, index)?.checked_neg().ok_or(Fault::Overflow),
        Expr::Not(inner) => Ok(i128::from(eval(inner, row, index)? == 0)),
        Expr::Binary { op, left, right } => binary(*op, left, right, row, index),
    }
}

fn binary(op: BinOp, left: &Expr, right: &Expr, row: &Sample, index: &[u64]) -> Result<i128, Fault> {
    let a = eval(left, row, index)?;
    match op {
        BinOp::And if a == 0 => return Ok(0),
        BinOp::Or if a != 0 => return Ok(1),
        _ => {}
    }
    let b = eval(right, row, index)?;
    match op {
        BinOp::Add => a.checked_add(b).ok_or(Fault::Overflow),
        BinOp::Sub => a.checked_sub(b).ok_or(Fault::Overflow),
        BinOp::Mul => a.checked_mul(b).ok_or(Fault::Overflow),
        BinOp::Div if b == 0 => Err(Fault::DivideByZero),
        BinOp::Div => a.checked_div(b).ok_or(Fault::Overflow),
        BinOp::Rem if b == 0 => Err(Fault::DivideByZero),
        BinOp::Rem => Ok(a.wrapping_rem(b)),
        BinOp::Min => Ok(a.min(b)),
        BinOp::Max => Ok(a.max(b)),
        BinOp::Eq => Ok(i128::from(a == b)),
        BinOp::Ne => Ok(i128::from(a != b)),
        BinOp::Lt => Ok(i128::from(a < b)),
        BinOp::Le => Ok(i128::from(a <= b)),
        BinOp::Gt => Ok(i128::from(a > b)),
        BinOp::Ge => Ok(i128::from(a >= b)),
        BinOp::And => Ok(i128::from(a != 0 && b != 0)),
        BinOp::Or => Ok(i128::from(a != 0 || b != 0)),
    }
}

fn node(op: BinOp, left: Expr, right: Expr) -> Expr {
    let (left, right) = (Box::new(left), Box::new(right));
    Expr::Binary { op, left, right }
}

// (x * 2 + y) * z - w
fn formula() -> Expr {
    let double = node(BinOp::Mul, Expr::Leaf(0), Expr::Number(2));
    let sum = node(BinOp::Add, double, Expr::Leaf(1));
    let product = node(BinOp::Mul, sum, Expr::Leaf(2));
    node(BinOp::Sub, product, Expr::Leaf(3))
}

#[inline(never)]
fn total(expr: &Expr, rows: u32) -> Result<i128, Fault> {
    let mut total = 0i128;
    for row in 0..rows {
        let value = eval(expr, &Sample::of_row(row), &[])?;
        total = total.checked_add(value).ok_or(Fault::Overflow)?;
    }
    Ok(total)
}

fn main() -> ExitCode {
    let words: Vec<String> = std::env::args().skip(1).collect();
    let rows = match words.as_slice() {
        [mode, rows] if mode == "eval" => rows.parse().ok(),
        _ => None,
    };
    let Some(rows) = rows else {
        return ExitCode::from(2);
    };
    match total(&std::hint::black_box(formula()), rows) {
        Ok(total) => println!("{total}"),
        Err(Fault::Overflow) => println!("overflow"),
        Err(Fault::DivideByZero) => println!("division by zero"),
    }
    ExitCode::SUCCESS
}
