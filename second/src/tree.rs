//! The program as a tree, and the form pass that builds it: refusals 1, 2 and 3 in line order.

use crate::rows::{
    is_well_formed, letter, name_of, number, refuse, row_at, whole_rows, Refusal, CHECKED, ROW_WIDTH,
};

/// A program: its classes in order (class c stands at index c - 1) and the start block.
#[derive(Debug)]
pub struct Program {
    pub classes: Vec<Class>,
    pub start: Expr,
}

/// C: a class with its fields and methods.
#[derive(Debug)]
pub struct Class {
    pub line: u32,
    pub kind: u32,
    pub superclass: u32,
    pub fields: Vec<Field>,
    pub methods: Vec<Method>,
}

/// F: a field.
#[derive(Debug)]
pub struct Field {
    pub line: u32,
    pub type_number: u32,
    pub name: u32,
}

/// M: a method with its P lines, X lines and body.
#[derive(Debug)]
pub struct Method {
    pub line: u32,
    pub result: u32,
    pub name: u32,
    pub parameters: Vec<Named>,
    pub effects: Vec<Named>,
    pub body: Expr,
}

/// P, X or V: a line that names one type or class.
#[derive(Debug)]
pub struct Named {
    pub line: u32,
    pub number: u32,
}

/// An expression and the line on which it stands.
#[derive(Debug)]
pub struct Expr {
    pub line: u32,
    pub node: Node,
}

/// The expressions of the language.
#[derive(Debug)]
pub enum Node {
    /// B
    Block { locals: Vec<Named>, items: Vec<Expr> },
    /// T
    True,
    /// L
    False,
    /// N
    Null,
    /// I
    Slot { slot: u32 },
    /// Z
    IsNull { value: Box<Expr> },
    /// G
    Get { name: u32, object: Box<Expr> },
    /// K
    Cast { class: u32, value: Box<Expr> },
    /// W
    New { class: u32 },
    /// R
    Change { slot: u32, class: u32 },
    /// A
    Assign { slot: u32, value: Box<Expr> },
    /// U
    Set { name: u32, object: Box<Expr>, value: Box<Expr> },
    /// Q
    Call { name: u32, receiver: Box<Expr>, arguments: Vec<Expr> },
    /// J
    If { condition: Box<Expr>, then: Box<Expr>, other: Box<Expr> },
}

/// The form pass: the tree of the rows, or the first refusal among 1, 2 and 3 in line order.
pub fn parse(rows: &[u32]) -> Result<Program, Refusal> {
    let count = whole_rows(rows)?;
    let mut form = Form { rows, count, at: 0 };
    form.program()
}

/// The most items for which room is reserved before they are read.
const RESERVED_ITEMS: usize = 16;

/// The rows with the place reached.
struct Form<'a> {
    rows: &'a [u32],
    count: usize,
    at: usize,
}

type Row = [u32; ROW_WIDTH];

impl Form<'_> {
    /// The line of the row at hand.
    fn line(&self) -> u32 {
        self.at as u32 + 1
    }

    fn refuse<T>(&self, number: u32) -> Result<T, Refusal> {
        refuse(number, self.line())
    }

    /// The row at hand, refused for what it shows alone: end too early (3), malformed (1), over a limit (2).
    fn look(&self) -> Result<Row, Refusal> {
        if self.at == self.count {
            return self.refuse(number::PLACE);
        }
        let row = row_at(self.rows, self.at);
        if !is_well_formed(&row) {
            return self.refuse(number::LINE);
        }
        if self.at >= CHECKED.rows || name_of(&row).is_some_and(|name| name > CHECKED.name) {
            return self.refuse(number::LIMIT);
        }
        Ok(row)
    }

    /// Classes, S, the start block and the end.
    fn program(&mut self) -> Result<Program, Refusal> {
        let mut classes = Vec::new();
        loop {
            match self.look()?[0] {
                letter::CLASS if classes.len() == CHECKED.classes => return self.refuse(number::LIMIT),
                letter::CLASS => classes.push(self.class()?),
                letter::START => break,
                _ => return self.refuse(number::PLACE),
            }
        }
        self.at += 1;
        let start = self.body(1)?;
        if self.at < self.count {
            self.look()?;
            return self.refuse(number::PLACE);
        }
        Ok(Program { classes, start })
    }

    /// A C line, its F lines and its methods.
    fn class(&mut self) -> Result<Class, Refusal> {
        let (line, head) = (self.line(), self.look()?);
        self.at += 1;
        let mut fields = Vec::new();
        loop {
            let row = self.look()?;
            if row[0] != letter::FIELD {
                break;
            }
            fields.push(Field { line: self.line(), type_number: row[1], name: row[2] });
            self.at += 1;
        }
        let mut methods = Vec::new();
        while self.look()?[0] == letter::METHOD {
            methods.push(self.method()?);
        }
        Ok(Class { line, kind: head[1], superclass: head[2], fields, methods })
    }

    /// An M line, its P lines, its X lines and its body.
    fn method(&mut self) -> Result<Method, Refusal> {
        let (line, head) = (self.line(), self.look()?);
        self.at += 1;
        let mut parameters = Vec::new();
        loop {
            let row = self.look()?;
            if row[0] != letter::PARAMETER {
                break;
            }
            if parameters.len() == CHECKED.parameters {
                return self.refuse(number::LIMIT);
            }
            parameters.push(Named { line: self.line(), number: row[1] });
            self.at += 1;
        }
        let mut effects = Vec::new();
        loop {
            let row = self.look()?;
            if row[0] != letter::EFFECT {
                break;
            }
            effects.push(Named { line: self.line(), number: row[1] });
            self.at += 1;
        }
        let body = self.body(1 + parameters.len())?;
        Ok(Method { line, result: head[1], name: head[2], parameters, effects, body })
    }

    /// The outer block of a method or of the start; `slots` are in scope already.
    fn body(&mut self, slots: usize) -> Result<Expr, Refusal> {
        if self.look()?[0] != letter::BLOCK {
            return self.refuse(number::PLACE);
        }
        self.expression(1, slots)
    }

    /// An expression at a nesting, with so many slots in scope.
    fn expression(&mut self, nesting: usize, slots: usize) -> Result<Expr, Refusal> {
        let row = self.look()?;
        if !letter::is_expression(row[0]) {
            return self.refuse(number::PLACE);
        }
        if nesting > CHECKED.nesting {
            return self.refuse(number::LIMIT);
        }
        let line = self.line();
        let node = match row[0] {
            letter::BLOCK => return self.block(line, row, nesting, slots),
            letter::TRUE => Node::True,
            letter::FALSE => Node::False,
            letter::NULL => Node::Null,
            letter::SLOT => Node::Slot { slot: row[1] },
            letter::NEW => Node::New { class: row[1] },
            letter::CHANGE => Node::Change { slot: row[1], class: row[2] },
            _ => return self.with_children(line, row, nesting + 1, slots),
        };
        self.at += 1;
        Ok(Expr { line, node })
    }

    /// A block: refused without expressions; then its V lines, each within the limit of slots; then its items.
    fn block(&mut self, line: u32, row: Row, nesting: usize, slots: usize) -> Result<Expr, Refusal> {
        let (v, k) = (row[1] as usize, row[2] as usize);
        if k == 0 {
            return self.refuse(number::PLACE);
        }
        self.at += 1;
        let mut locals = Vec::new();
        for index in 0..v {
            let row = self.look()?;
            if row[0] != letter::LOCAL {
                return self.refuse(number::PLACE);
            }
            if slots + index + 1 > CHECKED.slots {
                return self.refuse(number::LIMIT);
            }
            locals.push(Named { line: self.line(), number: row[1] });
            self.at += 1;
        }
        let items = self.expressions(k, nesting + 1, slots + v)?;
        Ok(Expr { line, node: Node::Block { locals, items } })
    }

    /// An expression of a letter that has children and is no block; the children stand at `nesting`.
    fn with_children(&mut self, line: u32, row: Row, nesting: usize, slots: usize) -> Result<Expr, Refusal> {
        self.at += 1;
        let first = Box::new(self.expression(nesting, slots)?);
        let node = match row[0] {
            letter::IS_NULL => Node::IsNull { value: first },
            letter::GET => Node::Get { name: row[1], object: first },
            letter::CAST => Node::Cast { class: row[1], value: first },
            letter::ASSIGN => Node::Assign { slot: row[1], value: first },
            letter::SET => {
                let value = Box::new(self.expression(nesting, slots)?);
                Node::Set { name: row[1], object: first, value }
            }
            letter::CALL => {
                let arguments = self.expressions(row[2] as usize, nesting, slots)?;
                Node::Call { name: row[1], receiver: first, arguments }
            }
            _ => {
                let then = Box::new(self.expression(nesting, slots)?);
                let other = Box::new(self.expression(nesting, slots)?);
                Node::If { condition: first, then, other }
            }
        };
        Ok(Expr { line, node })
    }

    /// So many expressions, one after the other.
    fn expressions(&mut self, count: usize, nesting: usize, slots: usize) -> Result<Vec<Expr>, Refusal> {
        let mut items = Vec::with_capacity(count.min(self.count - self.at).min(RESERVED_ITEMS));
        for _ in 0..count {
            items.push(self.expression(nesting, slots)?);
        }
        Ok(items)
    }
}
