//! The lines of calls: a list is its length and its items.

use crate::call::{Call, Items, Left, Operation};
use crate::text::{answer_token, float_token, read_float};

fn case_item(items: Items, bits: u32) -> String {
    match items {
        Items::Whole => bits.to_string(),
        Items::Float => float_token(f32::from_bits(bits)),
    }
}

fn answer_item(items: Items, bits: u32) -> String {
    match items {
        Items::Whole => bits.to_string(),
        Items::Float => answer_token(f32::from_bits(bits)),
    }
}

fn push(tokens: &mut Vec<String>, kind: Items, list: &[u32], item: fn(Items, u32) -> String) {
    tokens.push(list.len().to_string());
    tokens.extend(list.iter().map(|&bits| item(kind, bits)));
}

impl Call {
    pub fn line(&self) -> String {
        let mut tokens = vec![self.operation.word().to_string()];
        let float = self.operation.float_number();
        let number = |(at, &number): (usize, &usize)| {
            if float == Some(at) {
                case_item(Items::Float, number as u32)
            } else {
                number.to_string()
            }
        };
        tokens.extend(self.numbers.iter().enumerate().map(number));
        for (&kind, list) in self.operation.lists().iter().zip(&self.lists) {
            push(&mut tokens, kind, list, case_item);
        }
        tokens.join(" ")
    }

    /// The call that a case line writes, if it is one.
    pub fn read(word: &str, tokens: &[&str]) -> Option<Self> {
        let operation = Operation::all().find(|it| it.word() == word)?;
        let (numbers, mut rest) = tokens.split_at_checked(operation.numbers())?;
        let float = operation.float_number();
        let number = |(at, token): (usize, &&str)| {
            if float == Some(at) {
                read_float(token).map(|it| it.to_bits() as usize)
            } else {
                token.parse().ok()
            }
        };
        let numbers: Option<Vec<usize>> = numbers.iter().enumerate().map(number).collect();
        let mut lists = Vec::new();
        for &kind in operation.lists() {
            let (length, items) = rest.split_first()?;
            let (items, behind) = items.split_at_checked(length.parse().ok()?)?;
            lists.push(read_items(kind, items)?);
            rest = behind;
        }
        let numbers = numbers?;
        rest.is_empty().then_some(Self {
            operation,
            numbers,
            lists,
        })
    }
}

fn read_items(kind: Items, tokens: &[&str]) -> Option<Vec<u32>> {
    let one = |token: &&str| match kind {
        Items::Whole => token.parse().ok(),
        Items::Float => read_float(token).map(f32::to_bits),
    };
    tokens.iter().map(one).collect()
}

impl Left {
    /// The answer line to `call`.
    pub fn line(&self, call: &Call) -> String {
        let mut tokens = match (self.refused, self.failed) {
            (0, None) => vec!["done".to_string()],
            (0, Some((row, pivot))) => {
                let pivot = answer_token(f32::from_bits(pivot));
                vec!["failed".to_string(), row.to_string(), pivot]
            }
            (number, _) => vec!["refused".to_string(), number.to_string()],
        };
        tokens.extend(self.number.iter().map(usize::to_string));
        for (kind, list) in call.operation.answered().into_iter().zip(&self.lists) {
            push(&mut tokens, kind, list, answer_item);
        }
        tokens.join(" ")
    }
}
