//! The listing's text.

use crate::table::{list_text, set_text};
use crate::{Answer, Form, Node, RootAnswer};

/// The lines before the first root.
pub fn heading(form: Form, roots: usize) -> String {
    let answers = format!("answers\t{roots}\n");
    match form {
        Form::Plain => answers,
        Form::Numbered => answers + "numbered\n",
    }
}

/// The listing of all roots, as canon prints it. A root that the text has no
/// answer for is told by the word `endless` or `toolong`, its id and sign.
pub fn write(form: Form, answers: &[RootAnswer]) -> Vec<u8> {
    let mut text = heading(form, answers.len());
    for answer in answers {
        write_root(answer, &mut text);
    }
    text.into_bytes()
}

fn write_root(answer: &RootAnswer, text: &mut String) {
    let (id, sign) = (answer.root.id, answer.root.sign());
    match &answer.answer {
        Answer::Endless => text.push_str(&format!("endless\t{id}\t{sign}\n")),
        Answer::TooLong => text.push_str(&format!("toolong\t{id}\t{sign}\n")),
        Answer::Shown(shown) => {
            text.push_str(&format!(
                "root\t{id}\t{sign}\t{}\t{}\t{}\t{}\t{}\n",
                shown.passes,
                shown.operations,
                u8::from(shown.sorted),
                u8::from(shown.bailed),
                shown.nodes.len()
            ));
            for (number, node) in shown.nodes.iter().enumerate() {
                text.push_str(&format!("{number}\t{}\n", node_text(node)));
            }
        }
    }
}

fn node_text(node: &Node) -> String {
    match node {
        Node::TyVar(number) => format!("tyvar\t{number}"),
        Node::Prim(code) => format!("prim\t{code}"),
        Node::List(a) => format!("list\t{a}"),
        Node::Fn(param, body) => format!("fn\t{param}\t{body}"),
        Node::Set(set) => format!("set\t{}", set_text(set)),
        Node::Union(members) => format!("union\t{}", list_text(members)),
        Node::Inter(members) => format!("inter\t{}", list_text(members)),
        Node::Named(name, a) => format!("named\t{name}\t{a}"),
        Node::Neg(a) => format!("neg\t{a}"),
        Node::Bottom => "bottom".to_string(),
        Node::Top => "top".to_string(),
    }
}
