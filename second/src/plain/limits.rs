//! What the translator refuses in an accepted program: its own limits and the reserved names.

use crate::check::Accepted;
use crate::rows::{ID, IMP, TRANSLATED};
use crate::tree::{Expr, Node, Program};

/// The least line that goes over one of the translator's limits.
pub fn over_limit(accepted: &Accepted, rows: usize) -> Option<u32> {
    let mut least = if rows > TRANSLATED.rows { Some(TRANSLATED.rows as u32 + 1) } else { None };
    for (index, class) in accepted.program.classes.iter().enumerate() {
        if index == TRANSLATED.classes {
            over_at(&mut least, class.line);
        }
        let inherited = accepted.world.class(class.superclass).fields.len();
        if let Some(field) = class.fields.get(TRANSLATED.fields.saturating_sub(inherited)) {
            over_at(&mut least, field.line);
        }
        for method in &class.methods {
            over_limit_within(&method.body, 1, 1 + method.parameters.len(), &mut least);
        }
    }
    over_limit_within(&accepted.program.start, 1, 1, &mut least);
    least
}

/// Notes a line that goes over a limit.
fn over_at(least: &mut Option<u32>, line: u32) {
    *least = Some(least.map_or(line, |known| known.min(line)));
}

/// The limits of nesting and slots within an expression.
fn over_limit_within(expr: &Expr, nesting: usize, slots: usize, least: &mut Option<u32>) {
    if nesting > TRANSLATED.nesting {
        return over_at(least, expr.line);
    }
    let mut child = |expr: &Expr| over_limit_within(expr, nesting + 1, slots, least);
    match &expr.node {
        Node::True
        | Node::False
        | Node::Null
        | Node::Slot { .. }
        | Node::New { .. }
        | Node::Change { .. } => (),
        Node::IsNull { value } | Node::Cast { value, .. } | Node::Assign { value, .. } => child(value),
        Node::Get { object, .. } => child(object),
        Node::Set { object, value, .. } => {
            child(object);
            child(value);
        }
        Node::Call { receiver, arguments, .. } => {
            child(receiver);
            arguments.iter().for_each(child);
        }
        Node::If { condition, then, other } => {
            child(condition);
            child(then);
            child(other);
        }
        Node::Block { locals, items } => {
            if let Some(local) = locals.get(TRANSLATED.slots.saturating_sub(slots)) {
                over_at(least, local.line);
            }
            for item in items {
                over_limit_within(item, nesting + 1, slots + locals.len(), least);
            }
        }
    }
}

/// The first F line with a reserved name.
pub fn reserved(program: &Program) -> Option<u32> {
    let mut fields = program.classes.iter().flat_map(|class| &class.fields);
    fields.find(|field| field.name == ID || field.name == IMP).map(|field| field.line)
}
